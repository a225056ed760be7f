#!/usr/bin/env bash
# Serves 1,000,000 gets of one record from a file to a file, and shows gets per second, nanoseconds a get, and the ratio to
# a baseline that only splits frames and copies a fixed reply; the same of one of 4,000 records of ten fields, without the
# time in which they are loaded. Then the same over 1, 100 and 4,000 open channels with a request on each, which get in turn,
# without the time in which they are opened; and the nanoseconds in which one of 1,000, 2,000 and 4,000 channels is opened and
# closed. It is no part of the gate.
# Usage: bench/gets.sh [GETS]
set -euo pipefail
cd "$(dirname "$0")/.."
. bench/serving.sh
thousands=$((${1:-1000000} / 1000))
gets=$((thousands * 1000))

printf '\xCA\x02\x00\x0A\x09\x00\x00\x00\x00\x00\x00\x00\x01\x00\x00\x00\x00' > "$work/get"
make_input 0A "$thousands" "$work/get"
rustc -O -o "$work/baseline" bench/split_and_copy.rs

served=$(best "$server" --inetd X=42)
check_output $((209 + 46 * gets))
base=$(best "$work/baseline")

# X is the last of the records
for number in $(seq 10001 13999) X; do
    echo "record(longout, \"$number\") { field(DESC, \"a record of a site\")"
    echo 'field(EGU, "um") field(SCAN, "Passive") field(VAL, "42") field(HIHI, "5000") field(HHSV, "MAJOR")'
    echo 'field(LOLO, "-5000") field(LLSV, "MAJOR") field(DRVH, "6000") field(DRVL, "-6000") }'
done > "$work/many.db"
loaded=$(best "$server" --check "$work/many.db")
many=$(best "$server" --inetd "$work/many.db")
check_output $((209 + 46 * gets))
# Sets the variable id to the four bytes of a number, lowest first, as escapes of printf.
bytes_of_id() {
    printf -v id '\\x%02X\\x%02X\\x%02X\\x%02X' $(($1 & 255)) $((($1 >> 8) & 255)) $((($1 >> 16) & 255)) $((($1 >> 24) & 255))
}

# So many messages of one kind, the first for the channel and the request 0, the next for 1, and so on: what stands before
# the ids, how many ids there are, and what stands behind them; with a 1 behind that, from the last down to 0.
messages() {
    local number id
    for ((number = 0; number < $1; number++)); do
        bytes_of_id "$((${5:-0} ? $1 - 1 - number : number))"
        if [ "$3" -eq 2 ]; then id=$id$id; fi
        printf '%b' "\\xCA\\x02\\x00$2$id${4:-}"
    done
}

channels() { messages "$1" '\x07\x08\x00\x00\x00\x01\x00' 1 '\x01X'; }
requests() { messages "$1" '\x0A\x0C\x00\x00\x00' 2 '\x08\x80\x00\x00'; }
gets_in_turn() { messages "$1" '\x0A\x09\x00\x00\x00' 2 '\x00'; }
closings() { messages "$1" '\x08\x08\x00\x00\x00' 2 '' "$2"; }

# Writes the input of a run: a front, and so often a file.
repeated() {
    cat "$1"
    for _ in $(seq "$2"); do cat "$3"; done
}

rounds=$((gets / 4000))
[ "$rounds" -gt 0 ] || { echo "the number of gets is at least 4000" >&2; exit 2; }

# The time of so many gets over so many channels and requests, without their opening.
time_among() {
    local count=$1 opened served
    { validation; channels "$count"; requests "$count"; } > "$work/front"
    gets_in_turn "$count" > "$work/turn"
    repeated /dev/null $((4000 / count)) "$work/turn" > "$work/round"
    cp "$work/front" "$work/input"
    opened=$(best "$server" --inetd X=42)
    repeated "$work/front" "$rounds" "$work/round" > "$work/input"
    served=$(best "$server" --inetd X=42)
    check_output $((45 + 164 * count + 46 * 4000 * rounds))
    echo $((served - opened))
}

# The time in which channels are opened and closed, of which at most so many are open at a time: with a 1, the last is closed
# first.
time_to_open() {
    local count=$1
    validation > "$work/front"
    { channels "$count"; closings "$count" "$2"; } > "$work/turn"
    repeated /dev/null $((4000 / count)) "$work/turn" > "$work/round"
    repeated "$work/front" "$rounds" "$work/round" > "$work/input"
    best "$server" --inetd X=42
    check_output $((45 + 33 * 4000 * rounds))
}

awk -v n="$gets" -v s="$served" -v b="$base" -v c="$(nproc)" -v m="$many" -v l="$loaded" -v t="$(stat -c %s "$work/many.db")" 'BEGIN {
    printf "%d gets, %d cores\n", n, c
    printf "server:   %.0f gets per second, %.1f ns a get\n", n * 1e9 / s, s / n
    printf "of 4,000: %.1f ns a get, behind %.3f s in which %d bytes are loaded\n", (m - l) / n, l / 1e9, t
    printf "baseline: %.0f replies per second, %.1f ns a reply\n", n * 1e9 / b, b / n
    printf "ratio:    %.2f\n", b / s
}'
one=$(time_among 1)
hundred=$(time_among 100)
thousands=$(time_among 4000)
opened=$(time_to_open 1000 1)
twice=$(time_to_open 2000 1)
fourfold=$(time_to_open 4000 1)
first=$(time_to_open 4000 0)
awk -v n="$((4000 * rounds))" -v o="$one" -v h="$hundred" -v t="$thousands" -v a="$opened" -v b="$twice" -v d="$fourfold" -v f="$first" 'BEGIN {
    printf "over 1 channel and request:     %.1f ns a get\n", o / n
    printf "over 100 channels and requests: %.1f ns a get\n", h / n
    printf "over 4,000:                     %.1f ns a get, ratio to one %.2f\n", t / n, o / t
    printf "opened and closed: %.1f ns a channel of 1,000, %.1f of 2,000, %.1f of 4,000, %.1f where the first is closed first\n", a / n, b / n, d / n, f / n
}'
