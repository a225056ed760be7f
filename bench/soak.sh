#!/usr/bin/env bash
# A soak of `pvaserve --listen` over loopback: 500 clients that come, monitor, put, break off in the middle of messages and vanish, and 50
# hostile ones, beside 64 that only monitor and stay. At the end each of those that stayed has to show the last value, no thread, descriptor
# or mapping may be left over, and a newcomer has to be served within 50 ms. Then 200,000 connections come one after another and go at once,
# and 2,000 at a time: no thread, descriptor or mapping may be left over, and what memory grew by for each is shown. It needs `rustc`, and is
# no part of the gate.
# Usage: bench/soak.sh [SECONDS [CLIENTS [HOSTILE [CONNECTIONS]]]], 1200, 500, 50 and 200000 unless they are given.
# PVASERVE names another program than crates/pvaserve/out/pvaserve.
set -euo pipefail
cd "$(dirname "$0")/.."
seconds=${1:-1200} clients=${2:-500} hostile=${3:-50} connections=${4:-200000}
. bench/listening.sh
rustc --edition 2021 -O -o "$work/soak" bench/soak.rs
[ "$(ulimit -n)" -ge 8192 ] || ulimit -n 8192

records 64
silence=5
more=(--silence "$silence")
start_server
"$work/soak" "$port" "$pid" "$clients" "$hostile" "$seconds" "$silence"
stop "$pid"

more=()
start_server
"$load" storm "$port" "$pid" "$connections" 1
"$load" storm "$port" "$pid" "$connections" 2000
stop "$pid"
