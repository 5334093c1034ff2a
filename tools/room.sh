# shellcheck shell=bash
# Proves a goal's crates in a room: a copy of the crates that it needs, with no wrong bodies, where `rt ci` proves them
# as the gate does, several at once. Where rt keeps what it has proved on this machine, what either has proved stays
# proved for both. A script at the top of the repository reads this file behind tools/sources.sh and
# tools/build_times.sh, and sets `log`, the file that gets all that rt says.

gate= # rt, while it runs
room=$PWD

# Minutes, as measured on 2026-11-29 on a Xeon at 2.70 GHz: of one processor for all proofs; of the last
# crates, which wait for one another; of the longest chain of crates. The slowest machine that was measured
# took more than two and a half times as long.
all_proofs=45
last_crates=3
longest_chain=10

tell() {
    echo "hpkebatch: $1" >&2
}

tell_failure() {
    tail -n 12 "$log" >&2
    tell "the build failed; all that it said is in $PWD/$log"
    exit 1
}

# new_room NAME: where the room is made: rt looks at each file of a checkout but those of git. Only one script works in
# a checkout's rooms, which has the lock on its folder.
new_room() {
    if [ -d .git ]; then
        rm -rf ".git/$1-room" && mkdir ".git/$1-room" && echo "$PWD/.git/$1-room"
    else
        mktemp -d
    fi
}

# fill_room [GOAL ..]: copies the crates of the goals to the room, without wrong bodies and what was made of them.
fill_room() {
    local folders
    mapfile -t folders < <(rows "$@" | folders_of)
    rows "$@" >"$room/crates.txt" && cp HANDLES "$room" && mkdir "$room/.git" &&
        tar -c --exclude=out --exclude=must-fail "${folders[@]}" | tar -x -C "$room"
}

# Tells of each crate that has ended, from what rt says, and once there is enough to reckon with, how long the
# rest takes on this machine.
tell_progress() {
    local crates=$1 jobs=$2 ended=0 proved=0 done=0 left=0 last=0 line name rest
    local -A works
    while IFS= read -r name; do
        works[$name]=$(cd "$room" && work_of "$name")
        left=$((left + works[$name]))
        if [ "$name" != "$goal" ]; then last=${works[$name]}; fi
    done < <(sed 's/[ :].*//' "$room/crates.txt")
    last=$((last + works[$goal]))
    while IFS= read -r line; do
        [[ $line =~ ^rt:\ ([a-z0-9_]+)\ (proved$|is\ kept:) ]] || continue
        name=${BASH_REMATCH[1]}
        ended=$((ended + 1))
        left=$((left - works[$name]))
        if [ "${BASH_REMATCH[2]}" = proved ]; then
            proved=$((proved + 1))
            done=$((done + works[$name]))
        fi
        rest=
        if [ "$proved" -ge 5 ] && [ "$SECONDS" -ge 90 ] && [ "$left" -gt "$last" ]; then
            rest="; about $(minutes_left "$done" "$SECONDS" "$left" "$last" "$jobs") min more"
        fi
        tell "$ended of $crates crates, $((SECONDS / 60)) min $((SECONDS % 60)) s: $name$rest"
    done
}

# How many crates rt is to check at once, of so many processors (it reads RT_JOBS). rt begins a crate only where memory
# has room for what it reckons, and that is some three times what a check took, at most 2.3 GB: on small machines
# processors would wait. So where there are less than 7 GB for each processor it is told a number, with 2.5 GB for each
# check, and else nothing.
checks_at_once() {
    cat /proc/meminfo /sys/fs/cgroup/memory.max /sys/fs/cgroup/memory/memory.limit_in_bytes 2>/dev/null |
        awk -v processors="$1" '
            $1 == "MemAvailable:" { free = $2 * 1024 / 1e9 }
            /^[0-9]+$/ && $1 / 1e9 < free { free = $1 / 1e9 }
            END {
                checks = int(free / 2.5)
                if (checks > processors) checks = processors
                if (free < 7 * processors && checks > 1) print checks
            }'
}

# prove WHY [WORD ..]: proves the crates in the room, and tells its progress. WORDs go to `rt ci`.
prove() {
    local crates jobs minutes progress status why=$1
    shift
    crates=$(grep -c . "$room/crates.txt")
    jobs=$(nproc)
    minutes=$((all_proofs / jobs + last_crates))
    if [ "$minutes" -lt "$longest_chain" ]; then minutes=$longest_chain; fi
    tell "$why: proving $crates crates, from nothing $minutes to $((minutes * 13 / 5)) min on $jobs processors"
    if [ -z "${RT_JOBS-}" ]; then RT_JOBS=$(checks_at_once "$jobs"); fi
    (CDPATH='' cd -- "$room" && RT_JOBS=$RT_JOBS exec rt ci "$@") >>"$log" 2>&1 &
    gate=$!
    tail -n +1 -s 0.1 -f --pid="$gate" -- "$log" | tell_progress "$crates" "$jobs" &
    progress=$!
    wait "$gate"
    status=$?
    gate=
    wait "$progress"
    return "$status"
}

# in_background COMMAND ..: runs it so that a signal ends it with this script
in_background() {
    local status
    "$@" >>"$log" 2>&1 &
    gate=$!
    wait "$gate"
    status=$?
    gate=
    return "$status"
}

# compile TOOLCHAIN FILE [WORD ..]: has rattle check the goal once more over the libraries that `rt ci` left in the
# room, and compile it: to an object, or to the archive of the library for C, which `rt ci` proves and doesn't make. `rt
# lib` would prove all that is below once more.
compile() {
    local kit name root=src/main.rt words=()
    kit=$(dirname -- "$(rt doc)")
    if [ "$goal" = hpkebatch_c ]; then
        root=src/lib.rt
        words=(--crate-type staticlib)
    fi
    for name in std $(sed -n "/^${goal}[ :]/s/.*: *//p" "$room/crates.txt"); do
        if [ -d "$room/crates/$name" ]; then
            words+=(--extern "$name=$room/crates/$name/out/rlib/$name.rlib")
        else
            words+=(--extern "$name=$kit/rlibs/$name.rlib")
        fi
    done
    for name in "$room"/crates/*/out/rlib; do words+=(-L "dependency=$name"); done
    CDPATH='' cd -- "$room/crates/$goal" && mkdir -p out && exec "$kit/bin/rattle" build --crate-name "$goal" \
        "$root" "${words[@]}" -L "dependency=$kit/rlibs" --antt-project "$kit/rattle/logic/antt-project.json" \
        --logic-built "$kit/logic_built" --toolchain "$1" --backend llvm --jobs "$(nproc)" -o "$2"
}

# The room goes, whatever ends the script; a signal ends rt too, and with it all that it began.
clean_up() {
    trap '' INT TERM HUP
    if [ -n "$gate" ]; then kill "$gate" 2>/dev/null && wait "$gate"; fi
    if [ "$room" != "$PWD" ]; then rm -rf "$room"; fi
}

# What ends the script cleans up.
clean_up_at_end() {
    local signal
    trap clean_up EXIT
    for signal in INT:130 TERM:143 HUP:129; do
        # shellcheck disable=SC2064
        trap "exit ${signal#*:}" "${signal%:*}"
    done
}
