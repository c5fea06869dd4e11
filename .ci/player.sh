#!/usr/bin/env bash
# Tests each built player whose path is an argument: it plays the scripts of examples/, and what it lifts them to, which must print
# what stands beside them, and is started with words, inputs and outputs that no row of a crate can have. What differs, and at last
# 'N passed, M failed', goes to standard error; the status is 1 where something differs.
set -u
cd "$(dirname "$0")/.." || exit 1
printed=$(mktemp) || exit 1
trap 'rm -f "$printed"' EXIT
passed=0
failed=0

# judge NAME STATUS WANTED-STATUS WANTED-FILE: compares a status, and what was printed with a file
judge() {
    local difference
    difference=$(diff "$4" "$printed" 2>&1)
    if [ "$2" -eq "$3" ] && [ -z "$difference" ]; then
        passed=$((passed + 1))
    else
        failed=$((failed + 1))
        printf '%s: status %s, wanted %s\n%s\n' "$1" "$2" "$3" "$difference" >&2
    fi
}

# play NAME WANTED-STATUS WANTED-FILE WORD..: starts the player with these words, on this function's input
play() {
    local name=$1 status=$2 file=$3
    shift 3
    "$player" "$@" > "$printed"
    judge "$player, $name" $? "$status" "$file"
}

# play_full NAME WORD..: the same, where standard output takes nothing
play_full() {
    local name=$1
    shift
    : > "$printed"
    "$player" "$@" > /dev/full
    judge "$player, $name" $? 4 /dev/null
}

# line TEXT: a text and its line feed
line() {
    printf '%s\n' "$1"
}

# repeated BYTE COUNT: a script of one byte again and again
repeated() {
    head -c "$2" /dev/zero | tr '\0' "$1"
}

usage='usage: vxplay COMMAND'
for player in "$@"; do
    for script in examples/*.vxs; do
        play "$script" 0 "${script%.vxs}.out" run < "$script"
    done

    # the same scripts in version 2, as the player lifts them
    for trace in examples/*.trace; do
        play "$trace" 0 "$trace" run < <("$player" lift < "${trace%.trace}.vxs")
    done
    play 'a word behind lift' 1 <(line "$usage") lift x < examples/session.vxs
    play 'a script of version 2 to lift' 3 <(printf 'vxscript 2\nfault line 1 form\n') lift < <("$player" lift < examples/session.vxs)
    play_full 'no room for a lift' lift < examples/session.vxs

    # words that are no command
    play 'no word' 1 <(line "$usage") < examples/session.vxs
    play 'another word' 1 <(line "$usage") play < examples/session.vxs
    play 'a word in capitals' 1 <(line "$usage") RUN < examples/session.vxs
    play 'an empty word' 1 <(line "$usage") '' < examples/session.vxs
    play 'an option' 1 <(line "$usage") --version < examples/session.vxs
    play 'a word that is no UTF-8' 1 <(line "$usage") $'\xff' < examples/session.vxs
    play 'a word too many' 1 <(line "$usage") run x < examples/session.vxs

    # a run from a number, which reads no input and prints the same again
    play 'a run' 0 <(printf 'gen 1 4\nanswers 10 errors 0\ntransfers 4\ninterrupts 0\nwaits 2\ndone\n') gen 1 4 < examples
    play 'a long run' 0 <("$player" gen 7 20000) gen 7 20000 < examples
    play 'a run of no draws' 1 <(line "$usage") gen 0 0 < examples
    play 'a number with a leading zero' 1 <(line "$usage") gen 01 4 < examples
    play 'draws with a leading zero' 1 <(line "$usage") gen 1 04 < examples
    play 'a number with a sign' 1 <(line "$usage") gen +1 4 < examples
    play 'a number above the greatest' 1 <(line "$usage") gen 2147483648 4 < examples
    play 'one draw too many' 1 <(line "$usage") gen 1 1000001 < examples
    play 'a word behind a run' 1 <(line "$usage") gen 1 4 5 < examples
    play 'the greatest number' 0 <("$player" gen 2147483647 1) gen 2147483647 1 < examples
    play_full 'no room for a run' gen 1 4 < examples

    # a refused line, an input that can't be read, and an output that takes nothing
    play 'a refused line' 3 <(line 'fault line 1 form') run < <(line 'up 1')
    play 'a folder as its input' 2 /dev/null run < examples
    play_full 'no room for what it prints' run < examples/session.vxs
    play_full 'no room for its usage' play < examples/session.vxs

    # the longest script and line, and those that are a byte longer
    play 'the longest script' 0 <(line 'done') run < <(repeated '\n' 67108864)
    play 'a script that is too long' 6 <(line 'fault long') run < <(repeated '\n' 67108865)
    play 'the longest line' 0 <(line 'done') run < <(repeated '#' 1048576)
    play 'the longest line of version 2' 0 <(printf 'vxtrace 2\ndone\n') run < <(line 'vxscript 2'; repeated '#' 1048600)
    play 'a line of version 2 that is too long' 3 <(printf 'vxtrace 2\nfault line 2 form\n') run < <(line 'vxscript 2'; repeated '#' 1048601)
    play 'a line that is too long' 3 <(line 'fault line 1 form') run < <(repeated '#' 1048577)
done
line "$passed passed, $failed failed" >&2
[ "$passed" -gt 0 ] && [ "$failed" -eq 0 ]
