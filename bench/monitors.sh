#!/usr/bin/env bash
# Serves puts of one record from a file to a file, beside no subscription and beside 1,000 subscriptions of other records, and shows
# nanoseconds a put for each. What the client sends before the puts isn't counted. It is no part of the gate.
# Usage: bench/monitors.sh [PUTS]
set -euo pipefail
cd "$(dirname "$0")/.."
. bench/serving.sh
thousands=$((${1:-100000} / 1000))
others=1000

{
    echo 'record(longout, "X") {}'
    for number in $(seq "$others"); do printf 'record(longout, "R%04d") {}\n' "$number"; done
} > "$work/site.db"

# the channels: of X with the number 0, of the others behind it
{
    printf '\xE9\x03'
    word 0
    printf '\x01X'
    for number in $(seq "$others"); do
        word "$number"
        printf '\x05R%04d' "$number"
    done
} > "$work/names"

# request 0 puts to X
{
    validation
    frame 07 "$work/names"
    printf '\xCA\x02\x00\x0B\x0C\x00\x00\x00\x00\x00\x00\x00\x00\x00\x00\x00\x08\x80\x00\x00'
} > "$work/alone"

# each other record has a monitor, which is started
{
    cat "$work/alone"
    for number in $(seq "$others"); do
        printf '\xCA\x02\x00\x0D\x0C\x00\x00\x00'
        word "$number"
        word "$number"
        printf '\x08\x80\x00\x00\xCA\x02\x00\x0D\x09\x00\x00\x00'
        word "$number"
        word "$number"
        printf '\x44'
    done
} > "$work/beside"

printf '\xCA\x02\x00\x0B\x0F\x00\x00\x00\x00\x00\x00\x00\x00\x00\x00\x00\x00\x01\x02\x07\x00\x00\x00' > "$work/put"
for _ in $(seq 1000); do cat "$work/put"; done > "$work/thousand"

# The time of so many thousands of puts behind these messages. Each reply has 14 bytes.
time_of() {
    local opened size spent
    cp "$work/$1" "$work/input"
    opened=$(best "$server" --inetd "$work/site.db")
    size=$(stat -c %s "$work/output")
    for _ in $(seq "$thousands"); do cat "$work/thousand"; done >> "$work/input"
    spent=$(best "$server" --inetd "$work/site.db")
    check_output $((size + 14000 * thousands))
    echo $((spent - opened))
}

alone=$(time_of alone)
beside=$(time_of beside)
awk -v n="$((1000 * thousands))" -v a="$alone" -v b="$beside" -v m="$others" -v c="$(nproc)" 'BEGIN {
    printf "%d puts, %d cores\n", n, c
    printf "beside no subscription: %.0f ns a put\n", a / n
    printf "beside %d of other records: %.0f ns a put, ratio %.2f\n", m, b / n, b / a
}'
