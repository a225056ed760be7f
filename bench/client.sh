#!/usr/bin/env bash
# The client over loopback. Shows how many updates a second `pvac monitor --pipeline 64` prints, beside a client that only reads and
# acknowledges, of a record that another connection puts to as fast as the server answers, with 64 puts on the way; and how long `pvac get`
# takes from its start to its end, where it is told the server and where it searches for it. It fails where an update was lost, which is one
# that isn't shown and isn't marked as overrun either, or where anything else is printed than what was put. It needs `rustc`, and is no part
# of the gate.
# Usage: bench/client.sh [UPDATES [GETS]], 100000 and 50 unless they are given.
# PVASERVE and PVAC name other programs than crates/pvaserve/out/pvaserve and crates/pvac/out/pvac.
set -euo pipefail
cd "$(dirname "$0")/.."
updates=${1:-100000} gets=${2:-50}
. bench/listening.sh
client=$(program_of pvac "${PVAC:-}")

echo "$(nproc) processors"
records 1
# A server of its own for each run, which begins without a history, and what puts to it.
begin() {
    start_server
    "$load" puts "$port" 64 &
    putting=$!
    pids+=("$putting")
    sleep 0.2
}
end() {
    kill -0 "$putting" 2>/dev/null || { echo "the puts ended" >&2; exit 1; }
    stop "$putting"
    stop "$pid"
}

for round in 1 2 3; do
    begin
    "$load" watch "$port" "$updates" 64 4 >"$work/bare"
    end
    begin
    "$load" follow "$updates" "$work/printed" \
        "$client" monitor R0 --server "127.0.0.1:$port" --fields value --count "$updates" --pipeline 64 >"$work/client"
    end
    paste -d ' ' "$work/client" "$work/bare" >>"$work/rounds"
done
# the round whose quotient is in the middle
awk '{ print $1 / $3, $0 }' "$work/rounds" | sort -g | awk -v n="$updates" '{ line[NR] = $0 } END {
    split(line[2], m); split(line[1], l); split(line[3], h)
    printf "%d updates: pvac prints %.0f a second, a bare reader takes %.0f, ratio %.2f (%.2f to %.2f)\n", n, m[2], m[4], m[1], l[1], h[1]
    printf "of the updates %d%% and %d%% stand for several puts, and are marked so\n", m[3], m[5]
}'

start_server
gets_by() {
    "$load" times "$gets" $'R0\nvalue 0\n' "$client" get R0 --fields value "${@:2}" >"$work/times"
    awk -v n="$gets" -v by="$1" '{ printf "pvac get %s: %.1f ms from start to end (median of %d), %.1f at most\n", by, $1, n, $2 }' "$work/times"
}
gets_by "by --server" --server "127.0.0.1:$port"
gets_by "by search" --search "127.0.0.1:$udp"
stop "$pid"
