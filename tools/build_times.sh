# shellcheck shell=bash
# How long a build still takes, reckoned from how fast its first crates went. A script at the top of a
# build's room reads this file and calls its functions.
#
# The time of a crate's proof goes with the size of its src/: over the 53 libraries that were measured the
# correlation is 0.92, with 5 seconds for each crate's start. One second of one processor of a Xeon at
# 2.70 GHz is 474 bytes. A program is compiled twice besides, and its proof reads all that it uses.

start=2400
of_program=39000

# work_of CRATE: in bytes
work_of() {
    if [ -f "crates/$1/src/main.rt" ]; then
        echo "$of_program"
    else
        echo $((start + $(cat "crates/$1"/src/*.rt "crates/$1"/src/*/*.rt 2>/dev/null | wc -c)))
    fi
}

# minutes_left DONE SECONDS LEFT LAST JOBS: the work that was done in these seconds by these jobs at once, the
# work that is left, and how much of that is in crates that wait for one another at the end
minutes_left() {
    local done=$1 seconds=$2 left=$3 last=$4 jobs=$5
    echo $((((left - last + last * jobs) * seconds / done + 59) / 60))
}
