#!/usr/bin/env bash
# How late updates come, over loopback: the time from a put by one client of `pvaserve --listen` to the update at another, the median and the
# 99th percentile, at 1, 10, 100 and 1,000 puts a second, each put at its own time; and the processor's share of 1,000 connections with a
# monitor each of which nothing comes and to which nothing goes. It needs `rustc`, and is no part of the gate.
# Usage: bench/latency.sh [SECONDS [CLIENTS]], the length of each load (20, and 60 of that of one put a second), and the connections at rest
# (1000). PVASERVE names another program than crates/pvaserve/out/pvaserve.
set -euo pipefail
cd "$(dirname "$0")/.."
seconds=${1:-20} clients=${2:-1000}
. bench/listening.sh
# a descriptor for each connection, on both ends
[ "$(ulimit -n)" -ge 4096 ] || ulimit -n 4096

echo "$(nproc) processors"
records 64
for rate in 1 10 100 1000; do
    start_server
    length=$seconds
    [ "$rate" -ne 1 ] || length=$((3 * seconds))
    "$load" latency "$port" "$rate" "$length"
    stop "$pid"
done
start_server
"$load" rest "$port" "$pid" "$clients" 10
stop "$pid"
