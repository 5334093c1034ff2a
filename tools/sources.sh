# shellcheck shell=dash
# Tells whether the program that stands is of the sources as they are. A script at the top of the repository reads
# this file and calls its functions; sh is enough for them. Where it set goal=hpkebatch_c before, all that is said of
# the program is said of the library for C.

case ${goal-} in
hpkebatch_c) program=crates/hpkebatch_c/out/libhpkebatch_c.a ;;
*) goal=hpkebatch program=crates/hpkebatch/out/hpkebatch ;;
esac

# rows [GOAL ..]: the lines of crates.txt for the program, or for these, and for all that it uses, in their order
rows() {
    awk -v goals="${*:-$goal}" '
        function need(name, used, i, n) {
            if (!(name in uses) || name in needed) return
            needed[name]
            n = split(uses[name], used, " ")
            for (i = 1; i <= n; i++) need(used[i])
        }
        { sub(/#.*/, "") }
        split($0, part, ":") == 2 { split(part[1], word, " "); uses[name[++count] = word[1]] = part[2]; row[count] = $0 }
        END {
            n = split(goals, wanted, " ")
            for (i = 1; i <= n; i++) need(wanted[i])
            for (i = 1; i <= count; i++) if (name[i] in needed) print row[i]
        }' crates.txt
}

# The folders of these lines.
folders_of() {
    sed 's/[ :].*//; s/^/crates\//'
}

# found_in LINES [TEST ..]: what the program is made from, as these lines of crates.txt have it: the files and the
# folders, or those that meet find's TEST. No README.md, no wrong bodies, and nothing that was made of the sources.
found_in() {
    local folders
    [ -n "$1" ] && folders=$(echo "$1" | folders_of) || return
    shift
    # shellcheck disable=SC2086
    find HANDLES $folders \( -name out -o -name must-fail -o -name README.md \) -prune -o "$@" -print
}

# sha256_of FILE
sha256_of() {
    local sum
    sum=$(sha256sum <"$1") && echo "${sum%% *}"
}

# A sum of the program's lines of crates.txt, and of the name and the bytes of each file that the program
# is made from. No date counts. It fails where one of them can't be read.
sum_of_sources() {
    local lines files sums
    lines=$(rows) && files=$(found_in "$lines" -type f) || return
    sums=$(echo "$files" | LC_ALL=C sort | xargs -d '\n' sha256sum --) || return
    sums=$(printf '%s\n%s\n' "$lines" "$sums" | sha256sum) && echo "${sums%% *}"
}

# A sum of what the program is assembled from.
sum_of_dist() {
    local sums
    sums=$(sha256sum dist/parts.c "dist/$goal-x86-64-v2.s") && sums=$(echo "$sums" | sha256sum) && echo "${sums%% *}"
}

# keep_sum SUM [WAY]: notes that the program, as it stands, was built from sources with this sum: by their proof, or
# as WAY says, which is `dist`, the sum of dist, and the compiler. The sum is one from before the build, so that a
# change of a source while it is built isn't missed.
keep_sum() {
    local bytes
    bytes=$(sha256_of "$program") &&
        printf 'sources %s\nprogram %s\n%s\n' "$1" "$bytes" "${2:-proof}" >"$program.sources.$$" &&
        mv -f "$program.sources.$$" "$program.sources"
}

# put_in_place FILE SUM [WAY]: makes FILE the program, and notes what it was built from. It is moved and not copied,
# since the program that stands may be running. Where the sources were proved, nothing takes the place of that program.
put_in_place() {
    (
        flock 8
        if [ -n "${3-}" ] && HPKEBATCH_PROVE=1 is_built; then
            rm -f "$1"
        else
            mv -f "$1" "$program" && keep_sum "$2" "${3-}"
        fi
    ) 8<"crates/$goal"
}

# What the system keeps of the files and folders that it is told: their inodes, and when each was last changed,
# whatever date it was given. The last line is there only where none is missing.
look_at() {
    xargs -r -d '\n' stat -c '%i %.9Z %n' -- && echo end
}

# Whether all is as it was when the sums were compared last: the program, its note, and each file and folder that it
# is made from. A name that can't be looked at is a change.
is_as_seen() {
    [ -f "$program.seen" ] &&
        cut -s -d ' ' -f 3- "$program.seen" | look_at 2>/dev/null | cmp -s - "$program.seen"
}

# Looks at all of that: `way` is how the program was built.
see() {
    local lines names
    lines=$(rows) && names=$(found_in "$lines") || return
    if [ "$way" = dist ]; then names=$(printf '%s\n' "$names" dist dist/parts.c "dist/$goal-x86-64-v2.s"); fi
    printf '%s\n' "$program" "$program.sources" crates.txt "$names" | look_at
}

# Whether the program that stands was built from the sources as they are, and from dist as it is if it was assembled;
# where HPKEBATCH_PROVE is set, whether it was proved besides.
is_built() {
    local seeing=$program.seen.$$ sources bytes way assembled _
    [ -f "$program" ] && [ -f "$program.sources" ] || return
    [ "$goal" = hpkebatch_c ] || [ -x "$program" ] || return
    { read -r _ sources && read -r _ bytes && read -r way assembled _; } <"$program.sources" || return
    [ "$way" = proof ] || [ "${HPKEBATCH_PROVE:-0}" = 0 ] || return
    is_as_seen && return
    # from before the sums, so that a change meanwhile isn't missed
    { see >"$seeing"; } 2>/dev/null || rm -f "$seeing"
    if [ "$sources" = "$(sum_of_sources 2>/dev/null)" ] && [ "$bytes" = "$(sha256_of "$program")" ] &&
        { [ "$way" = proof ] || [ "$assembled" = "$(sum_of_dist)" ]; }; then
        [ ! -f "$seeing" ] || mv -f "$seeing" "$program.seen"
    else
        rm -f "$seeing"
        return 1
    fi
}
