#!/usr/bin/env bash
# Serves puts of one record from a file to a file, and shows nanoseconds a put for a short history and for one of ten times as
# many entries. It is no part of the gate.
# Usage: bench/puts.sh [PUTS]
set -euo pipefail
cd "$(dirname "$0")/.."
. bench/serving.sh
thousands=$((${1:-100000} / 1000))

printf '\xCA\x02\x00\x0B\x0F\x00\x00\x00\x00\x00\x00\x00\x01\x00\x00\x00\x00\x01\x02\x07\x00\x00\x00' > "$work/put"

# The time of so many thousands of puts, each of whose replies has 14 bytes.
time_of() {
    local least
    make_input 0B "$1" "$work/put"
    least=$(best "$server" --inetd X=42)
    check_output $((209 + 14000 * $1))
    echo "$least"
}

few=$(time_of "$thousands")
many=$(time_of $((10 * thousands)))
awk -v n="$((1000 * thousands))" -v f="$few" -v m="$many" -v c="$(nproc)" 'BEGIN {
    printf "%d cores\n", c
    printf "%d puts: %.0f ns a put\n", n, f / n
    printf "%d puts: %.0f ns a put\n", 10 * n, m / n / 10
}'
