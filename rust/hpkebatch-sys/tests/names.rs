//! Which names the archive has, by `nm` of binutils: the library's own are global, and no others.

use std::collections::BTreeSet;
use std::ffi::CStr;
use std::process::Command;

const ARCHIVE: &str = concat!(env!("OUT_DIR"), "/libhpkebatch.a");
const CALLS: &str = include_str!("../src/lib.rs");

/// The names of the archive that nm prints with these words.
fn names(words: &[&str]) -> BTreeSet<String> {
    let nm = Command::new("nm").args(words).arg(ARCHIVE).output();
    let nm = nm.expect("nm of binutils is installed");
    assert!(nm.status.success());
    let lines = String::from_utf8(nm.stdout).expect("names are text");
    let names = lines
        .lines()
        .filter(|line| !line.is_empty() && !line.ends_with(':'));
    let names = names.map(|line| line.split_whitespace().next().unwrap_or_default());
    names.map(str::to_string).collect()
}

#[test]
fn no_name_but_the_librarys_own_is_global() {
    let global = names(&["-P", "-g", "--defined-only"]);
    assert!(global.len() >= 30, "{global:?}");
    assert!(
        global.iter().all(|name| name.starts_with("hpkebatch_")),
        "{global:?}"
    );
}

#[test]
fn the_library_has_each_call_that_is_declared() {
    let global = names(&["-P", "-g", "--defined-only"]);
    let calls = CALLS.split("pub fn ").skip(1);
    let calls = calls.map(|call| call.split('(').next().unwrap_or_default());
    let calls: Vec<&str> = calls
        .filter(|name| name.starts_with("hpkebatch_"))
        .collect();
    assert!(calls.len() >= 30);
    for call in calls {
        assert!(global.contains(call), "the library has no {call}");
    }
}

#[test]
fn nothing_that_the_texts_call_is_missing() {
    let undefined = names(&["-P", "-u"]);
    assert!(undefined.contains("malloc"), "{undefined:?}");
    let own = |name: &String| name.starts_with("rattle") || name.starts_with("hpkebatch");
    assert!(!undefined.iter().any(own), "{undefined:?}");
}

#[test]
fn the_library_says_which_version_it_is_and_what_a_status_means() {
    // SAFETY: both give a text that ends in a zero byte and stays.
    let (version, sentence) = unsafe {
        (
            CStr::from_ptr(hpkebatch_sys::hpkebatch_version()),
            CStr::from_ptr(hpkebatch_sys::hpkebatch_strerror(11)),
        )
    };
    assert_eq!(version.to_str(), Ok(env!("CARGO_PKG_VERSION")));
    assert!(sentence.to_bytes().starts_with(b"the tag does not hold"));
}
