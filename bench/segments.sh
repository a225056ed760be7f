#!/usr/bin/env bash
# Serves echoes of 60,000 bytes to a client that announced a buffer of 1,024 bytes, so that each reply goes in 60 segments, and
# shows megabytes of payload per second, and the ratio to a baseline that only splits frames and cuts payloads. It is no part of
# the gate.
# Usage: bench/segments.sh [ECHOES]
set -euo pipefail
cd "$(dirname "$0")/.."
. bench/serving.sh
echoes=${1:-5000}

{ printf '\xCA\x02\x00\x02\x60\xEA\x00\x00'; head -c 60000 /dev/zero; } > "$work/echo"
{
    printf '\xCA\x02\x00\x01\x13\x00\x00\x00\x00\x04\x00\x00\x00\x00\x00\x00\x09anonymous\xFF'
    for _ in $(seq "$echoes"); do cat "$work/echo"; done
} > "$work/input"
rustc -O -o "$work/baseline" bench/split_and_cut.rs

served=$(best "$server" --inetd X=42)
check_output $((45 + 60480 * echoes))
base=$(best "$work/baseline")
awk -v n="$echoes" -v s="$served" -v b="$base" -v c="$(nproc)" 'BEGIN {
    printf "%d echoes of 60,000 bytes in segments of 1,016, %d cores\n", n, c
    printf "server:   %.0f MB per second\n", n * 60000 * 1000 / s
    printf "baseline: %.0f MB per second\n", n * 60000 * 1000 / b
    printf "ratio:    %.2f\n", b / s
}'
