//! Assembles the library's text, and makes an archive of it for the linker.
//!
//! The steps are those of the repository's `tools/make_library`: the text and the C files beside it
//! are made into one object, in which no name but `hpkebatch_*` is global, so that nothing here
//! meets a name of another library.

use std::env;
use std::ffi::OsStr;
use std::path::{Path, PathBuf};
use std::process::{exit, Command};

/// Why nothing was built, in a sentence.
type Fault = String;

/// A command: its first word names a program, and the others are words that each call of it begins
/// with.
struct Tool(Vec<String>);

fn main() {
    if let Err(fault) = build() {
        eprintln!("hpkebatch-sys: {fault}");
        exit(1);
    }
}

fn build() -> Result<(), Fault> {
    println!("cargo:rerun-if-changed=build.rs");
    println!("cargo:rerun-if-changed=c");
    check_target()?;
    let texts = PathBuf::from(variable("CARGO_MANIFEST_DIR")?).join("c");
    let out = PathBuf::from(variable("OUT_DIR")?);
    let objects = objects(&texts, &out)?;
    archive(&objects, &out)?;
    println!("cargo:rustc-link-search=native={}", out.display());
    println!("cargo:rustc-link-lib=static=hpkebatch");
    println!("cargo:include={}", texts.display());
    Ok(())
}

fn variable(name: &str) -> Result<String, Fault> {
    env::var(name).map_err(|_| format!("{name} isn't set, as cargo sets it"))
}

/// The text is of one processor and one C library. `parts.c` refuses an older glibc by itself.
fn check_target() -> Result<(), Fault> {
    let target = variable("TARGET")?;
    let asked = |name: &str| env::var(name).unwrap_or_default();
    let is_met = asked("CARGO_CFG_TARGET_ARCH") == "x86_64"
        && asked("CARGO_CFG_TARGET_POINTER_WIDTH") == "64"
        && asked("CARGO_CFG_TARGET_OS") == "linux"
        && asked("CARGO_CFG_TARGET_ENV") == "gnu";
    if is_met {
        return Ok(());
    }
    Err(format!(
        "the library is for x86_64-unknown-linux-gnu alone, and the target is {target}"
    ))
}

/// Makes an object of each C file that is there, and of the text. `parts.c` comes first: its
/// `#error` says best why nothing can be made.
fn objects(texts: &Path, out: &Path) -> Result<Vec<PathBuf>, Fault> {
    let compiler = tool("CC", &["cc", "gcc", "clang"], "a C compiler")?;
    let mut objects = Vec::new();
    for name in ["parts.c", "library.c", "hpkebatch_c.s"] {
        let source = texts.join(name);
        if source.is_file() {
            let object = out.join(name).with_extension("o");
            compile(&compiler, &source, &object)?;
            objects.push(object);
        }
    }
    Ok(objects)
}

fn compile(compiler: &Tool, source: &Path, object: &Path) -> Result<(), Fault> {
    let words = match source.extension() {
        Some(extension) if extension == "s" => &["-x", "assembler"][..],
        _ => &["-O2", "-fPIC", "-DLIBRARY"][..],
    };
    let mut words: Vec<&OsStr> = words.iter().map(OsStr::new).collect();
    words.extend(["-c".as_ref(), source.as_os_str()]);
    words.extend(["-o".as_ref(), object.as_os_str()]);
    compiler.run(&words)
}

/// Makes `libhpkebatch.a` of one object that has all of them, with no global name but the library's
/// own.
fn archive(objects: &[PathBuf], out: &Path) -> Result<(), Fault> {
    let linker = tool("LD", &["ld", "ld.lld"], "a linker")?;
    let copier = tool("OBJCOPY", &["objcopy", "llvm-objcopy"], "objcopy")?;
    let archiver = tool("AR", &["ar", "llvm-ar"], "ar")?;
    let one = out.join("hpkebatch.o");
    let archive = out.join("libhpkebatch.a");
    let mut words = vec!["-r".as_ref(), "-o".as_ref(), one.as_os_str()];
    words.extend(objects.iter().map(|object| object.as_os_str()));
    linker.run(&words)?;
    copier.run(&[
        "--wildcard".as_ref(),
        "--keep-global-symbol=hpkebatch_*".as_ref(),
        one.as_os_str(),
    ])?;
    let _ = std::fs::remove_file(&archive); // else `ar` adds to one of an earlier build
    archiver.run(&["rcsD".as_ref(), archive.as_os_str(), one.as_os_str()])
}

/// The tool that a variable of the environment names, or else the first of these that is on the
/// PATH.
fn tool(variable: &str, names: &[&str], what: &str) -> Result<Tool, Fault> {
    println!("cargo:rerun-if-env-changed={variable}");
    let named = env::var(variable).unwrap_or_default();
    let words: Vec<String> = named.split_whitespace().map(String::from).collect();
    if let Some(name) = words.first() {
        let fault = || format!("{variable} names {name}, which isn't on the PATH");
        return if is_on_path(name) {
            Ok(Tool(words))
        } else {
            Err(fault())
        };
    }
    let found = names.iter().find(|name| is_on_path(name));
    let found = found.map(|name| Tool(vec![name.to_string()]));
    found.ok_or_else(|| {
        format!(
            "{what} is needed, and the PATH has no {}",
            names.join(" and no ")
        )
    })
}

fn is_on_path(name: &str) -> bool {
    if name.contains('/') {
        return Path::new(name).is_file();
    }
    let path = env::var_os("PATH").unwrap_or_default();
    let mut folders = env::split_paths(&path);
    folders.any(|folder| folder.join(name).is_file())
}

impl Tool {
    fn run(&self, words: &[&OsStr]) -> Result<(), Fault> {
        let name = &self.0[0];
        let output = Command::new(name)
            .args(&self.0[1..])
            .args(words)
            .output()
            .map_err(|fault| format!("{name} can't be run: {fault}"))?;
        if output.status.success() {
            return Ok(());
        }
        Err(said(name, &String::from_utf8_lossy(&output.stderr)))
    }
}

/// Why a tool failed: the sentence of an `#error`, or else its first line about an error.
fn said(name: &str, errors: &str) -> Fault {
    let is_error = |line: &&str| line.to_lowercase().contains("error");
    let line = errors.lines().find(is_error).or(errors.lines().next());
    let line = line.unwrap_or("it said nothing");
    let (_, fault) = line.split_once("error: ").unwrap_or(("", line));
    let sentence = fault.trim_start_matches("#error ").strip_prefix('"');
    match sentence.and_then(|sentence| sentence.strip_suffix('"')) {
        Some(sentence) => sentence.to_string(),
        None => format!("{name} failed: {line}"),
    }
}
