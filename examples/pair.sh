#!/bin/sh
# pair, by the command `hpkebatch`: its words and lines are those of pair.c. Besides it needs od, awk and tr.
#
#     pair.sh keygen                 two lines: the public key and the secret key, in hex
#     pair.sh seal PUBLIC_HEX_FILE   a text on standard input; two lines: enc and ct, in hex
#     pair.sh open SECRET_HEX_FILE   those two lines on standard input; the text
set -eu

fail() {
    echo "pair: $1" >&2
    exit 1
}

# to_hex: standard input in hex, - for no bytes, as a batch has it
to_hex() {
    digits=$(od -An -v -tx1 | tr -d ' \n')
    echo "${digits:--}"
}

# from_hex DIGITS: these bytes
from_hex() {
    # shellcheck disable=SC2059
    printf "$(echo "$1" | awk '{
        for (at = 1; at < length($0); at += 2)
            printf "\\%03o", 16 * index("123456789abcdef", substr($0, at, 1)) + index("123456789abcdef", substr($0, at + 1, 1))
    }')"
}

# reply LINE ..: what the command answers to a batch of these lines, of its own seed
reply() {
    printf '%s\n' 'hpkebatch 1' "rand $(head -c 32 /dev/urandom | to_hex)" "$@" end | hpkebatch run || fail 'the command failed'
}

# field WORD PLACE LINES: of the first line with this word, the field at this place
field() {
    echo "$3" | awk -v word="$1" -v place="$2" '$1 == word || $3 == word { print $place; found = 1; exit } END { exit !found }' ||
        fail "the command answers: $(echo "$3" | grep -m 1 -e refused -e failed || echo "$3" | head -n 1)"
}

# digits_of FILE: the digits of its first line
digits_of() {
    head -n 1 -- "$1" 2>/dev/null || fail 'the key file can not be read'
}

info=$(printf pair | to_hex)
case "$# ${1-}" in
'1 keygen')
    answer=$(reply keygen)
    field generated 4 "$answer"
    field generated 5 "$answer"
    ;;
'2 seal')
    key=$(digits_of "$2")
    answer=$(reply "peer $key" "send 1 1 0 base $info - - 1" lane "seal 0 - $(to_hex)")
    field sender 4 "$answer"
    field sealed 3 "$answer"
    ;;
'2 open')
    key=$(digits_of "$2")
    { read -r enc && read -r ct; } || fail 'there are no two lines'
    answer=$(reply "secret $key" "recv 1 1 0 $enc base $info - - 1" lane "unseal 0 - $ct")
    text=$(field opened 3 "$answer")
    [ "$text" = - ] || from_hex "$text"
    ;;
*) fail 'usage: pair.sh keygen | seal PUBLIC_HEX_FILE | open SECRET_HEX_FILE' ;;
esac
