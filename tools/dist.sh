# shellcheck shell=dash
# Makes programs and the library for C of the texts in dist/. A script at the top of the repository reads this file
# behind tools/sources.sh and calls its functions. `dist` may name another folder; where a function fails, `why` says why.

dist=${dist-dist}
why=

# said_of KEY: what dist/sources says of this
said_of() {
    sed -n "s/^$1 //p" "$dist/sources" 2>/dev/null
}

# is_of SUM: whether dist has the goal's text of the sources with this sum, as tools/make_dist wrote it
is_of() {
    local text=$goal-x86-64-v2.s
    if [ ! -f "$dist/sources" ] || [ ! -f "$dist/$text" ]; then
        why="$dist has no $text"
    elif [ "$(said_of "$goal sources")" != "$1" ]; then
        why="$dist/$text is of other sources"
    elif [ "$(said_of "$goal text")" != "$(sha256_of "$dist/$text")" ]; then
        why="$dist/$text isn't as tools/make_dist wrote it"
    else
        return 0
    fi
    return 1
}

# Finds the compiler for C: CC, or cc, gcc or clang.
find_compiler() {
    for compiler in "${CC:-cc}" gcc clang; do
        if command -v "${compiler%% *}" >/dev/null; then return; fi
        if [ -n "${CC-}" ]; then break; fi
    done
    why="no C compiler is on the PATH (${CC:-cc, gcc or clang})"
    return 1
}

# What the compiler says that it is.
name_of_compiler() {
    $compiler --version 2>/dev/null | head -n 1
}

# assemble FOLDER [WORD ..]: makes parts.o and text.o in FOLDER; WORDs are for the compile of the parts
assemble() {
    local folder=$1
    shift
    $compiler -O2 "$@" -c "$dist/parts.c" -o "$folder/parts.o" 2>"$folder/errors" &&
        $compiler -x assembler -c "$dist/$goal-x86-64-v2.s" -o "$folder/text.o" 2>"$folder/errors" ||
        compiler_failed "$folder"
}

# Says why: by the sentence of parts.c, else by the compiler's first error.
compiler_failed() {
    why=$(sed -n 's/^.*error: \(#error \)\{0,1\}"\(.*\)"$/\2/p' "$1/errors" | head -n 1)
    if [ -z "$why" ]; then why="$compiler failed: $(grep -m 1 -i error "$1/errors" || head -n 1 "$1/errors")"; fi
    return 1
}

# link_program FOLDER: makes FOLDER/program. `main` of the text doesn't ask for the command line; parts.c keeps it.
link_program() {
    assemble "$1" -fPIE &&
        { $compiler -pie -Wl,--wrap=main -Wl,-z,relro,-z,now,-z,noexecstack \
            "$1/text.o" "$1/parts.o" -o "$1/program" 2>"$1/errors" || compiler_failed "$1"; }
}

# What the kit on the PATH says that it is, in a line.
name_of_kit() {
    local kit
    kit=$(dirname -- "$(rt doc)") && { rt version && cat "$kit/WHAT" 2>/dev/null; } | paste -s -d ' ' -
}

# by_kit FOLDER FILE: makes FOLDER/same of the goal's text, by the kit's clang and with the kit's own parts, where that
# text is FILE's. -march only chooses the padding that clang chose when it compiled. Of the library, FILE is an
# archive of one object, and FOLDER/built is that object; the list of addresses that it has for a linker is left out of both.
by_kit() {
    local kit
    kit=$(dirname -- "$(rt doc)") &&
        "$kit/toolchain/bin/clang" --target=x86_64-unknown-linux-gnu -march=x86-64-v2 \
            -c "$dist/$goal-x86-64-v2.s" -o "$1/object" 2>"$1/errors" || return
    if [ "$goal" = hpkebatch ]; then
        cp "$2" "$1/built" &&
            "$kit/bin/rattle-link" --target x86_64-unknown-linux-gnu --toolchain "$kit/toolchain" -o "$1/same" \
                "$1/object" "$kit/c/libos_c.a" "$kit/c/liblibc_c.a" 2>"$1/errors"
    else
        "$kit/toolchain/bin/llvm-ar" p "$2" >"$1/member" &&
            objcopy -R .llvm_addrsig "$1/member" "$1/built" && objcopy -R .llvm_addrsig "$1/object" "$1/same"
    fi
}

# compare SUM FOLDER FILE: whether the goal's text in dist is that of FILE, which was built by the proof of the sources with
# this sum: 0 if it is, byte for byte, 1 if it isn't, 2 if it can't be told.
compare() {
    if ! is_of "$1"; then
        return 2
    elif ! command -v rt >/dev/null; then
        why="rt isn't on the PATH"
        return 2
    elif [ "$(said_of kit)" != "$(name_of_kit)" ]; then
        why="$dist was made by another kit ($(said_of kit | cut -d ' ' -f 1-3))"
        return 2
    elif [ "$goal" = hpkebatch_c ] && ! command -v objcopy >/dev/null; then
        why="objcopy isn't here"
        return 2
    elif ! by_kit "$2" "$3"; then
        why="the kit can't assemble and link $dist/$goal-x86-64-v2.s: $(head -n 1 "$2/errors")"
        return 1
    elif ! cmp -s "$2/same" "$2/built"; then
        why="$dist/$goal-x86-64-v2.s isn't the text of $3"
        return 1
    fi
}
