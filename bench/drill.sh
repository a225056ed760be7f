#!/usr/bin/env bash
# Serves the drill's sixteen records and four groups from a file to a file: a client as that of `--drill`, with a monitor of each group and
# so many thousands of puts of drawn numbers in place of ten. Shows messages per second; and of `--drill` itself, which serves its 10,026
# messages in memory, those of as many runs one after another, less the starts of the program. Each is the best of thirty runs of a
# tenth of a second: a virtual machine of which others take their share seldom has a whole second to itself. It is no part of the gate.
# Usage: bench/drill.sh [THOUSANDS] [NUMBER]
set -euo pipefail
cd "$(dirname "$0")/.."
. bench/serving.sh
tens=$((${1:-100} / 10))
first=${2:-7}
runs=30

for number in {0..15}; do
    letters=abcd
    printf 'record(longout, "drill:%d") { info(Q:group, {"drill:g%d": {"%s": {+channel:"VAL", +type:"plain"}}}) }\n' \
        "$number" $((number / 4)) "${letters:number % 4:1}"
done > "$work/drill.db"

# the channels: the records have the numbers 0 to 15, and the groups 16 to 19
{
    printf '\x14\x00'
    for number in {0..15}; do
        word "$number"
        printf "\\x0$((number < 10 ? 7 : 8))"'drill:%d' "$number"
    done
    for number in {0..3}; do
        word $((16 + number))
        printf '\x08drill:g%d' "$number"
    done
} > "$work/names"

# a request begins on the channel of its number, by the command whose byte is given
begin() {
    printf "\\xCA\\x02\\x00\\x$1"'\x0C\x00\x00\x00'
    word "$2"
    word "$2"
    printf '\x08\x80\x00\x00'
}

{
    validation
    frame 07 "$work/names"
    for number in {0..15}; do begin 0B "$number"; done
    for number in {16..19}; do begin 0D "$number"; done
    for number in {16..19}; do
        printf '\xCA\x02\x00\x0D\x09\x00\x00\x00'
        word "$number"
        word "$number"
        printf '\x44'
    done
} > "$work/input"

# each put takes two numbers of a linear congruence: one chooses its record, and one is its value
drawn=$((first & 0x7FFFFFFF))
draw() { drawn=$(((1103515245 * drawn + 12345) & 0x7FFFFFFF)); }
for _ in {1..10000}; do
    draw
    record=$((drawn / 256 % 16))
    draw
    printf '\xCA\x02\x00\x0B\x0F\x00\x00\x00'
    word "$record"
    word "$record"
    printf '\x00\x01\x02'
    word $((drawn % 1000))
done > "$work/puts"
for _ in $(seq "$tens"); do cat "$work/puts"; done >> "$work/input"

served=$(best "$server" --inetd "$work/drill.db")

# as many drills as there are tens of thousands of puts, each with a number of its own
drills() { for number in $(seq "$tens"); do "$server" --drill "$number"; done; }
starts() { for _ in $(seq "$tens"); do "$server" --version; done; }

started=$(best starts)
drilled=$(best drills)
[ "$(grep -c '^closed$' "$work/output")" -eq "$tens" ] || { echo 'a drill was not closed' >&2; exit 1; }
awk -v n="$((26 + 10000 * tens))" -v s="$served" -v m="$((10026 * tens))" -v d="$((drilled - started))" -v c="$(nproc)" 'BEGIN {
    printf "%d cores\n", c
    printf "%d messages over a file: %.0f messages per second, %.0f ns a message\n", n, n * 1e9 / s, s / n
    printf "%d messages of drills: %.0f messages per second, %.0f ns a message\n", m, m * 1e9 / d, d / m
}'
