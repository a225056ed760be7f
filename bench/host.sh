#!/usr/bin/env bash
# Many clients over loopback. Shows how many gets a second `pvaserve --listen` answers to 1 and to 64 connections, each of a record of its
# own, with one get and with 16 on the way, beside an echo server that has a thread for each client too and reads and writes as many bytes;
# the processor time that both take for one; and how long one of the connections waits for its reply, the median and the 99th percentile.
# Then how long after a put a monitor of another connection shows it, and at last 1,000 connections with a monitor each, for a minute, while
# all records are put to ten times a second: in which time they come, the memory and the threads for them, what they cost while nothing
# comes, and that no update is lost. It fails where a reply is wrong or an update is lost. It needs `rustc`, and is no part of the gate.
# Usage: bench/host.sh [SECONDS [HELD [CLIENTS]]], the length of each of the 24 turns of gets (1.5), that of the load on the connections with
# monitors (60), and how many of these there are (1000; a server takes 1,024 monitors).
# PVASERVE names another program than crates/pvaserve/out/pvaserve.
set -euo pipefail
cd "$(dirname "$0")/.."
seconds=${1:-1.5} held=${2:-60} clients=${3:-1000}
. bench/listening.sh
# a descriptor for each connection, on both ends
[ "$(ulimit -n)" -ge 4096 ] || ulimit -n 4096

echo "$(nproc) processors"
records 64
start_server
echo_port=$("$load" port)
"$load" echo "$echo_port" &
echo_pid=$!
pids+=("$echo_pid")
sleep 0.2
for connections in 1 64; do
    for flight in 1 16; do
        "$load" gets "$port" "$pid" "$echo_port" "$echo_pid" "$connections" "$flight" "$seconds" 3
    done
done
stop "$echo_pid"
"$load" delay "$port" 100
stop "$pid"

start_server
"$load" hold "$port" "$pid" "$clients" 64 "$held"
stop "$pid"
