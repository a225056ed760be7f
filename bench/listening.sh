# What the benches over the network share. It is sourced by a script of this folder, which has gone to the repository's top.

work=$(mktemp -d)
pids=()
cleanup() {
    [ ${#pids[@]} -eq 0 ] || kill "${pids[@]}" 2>/dev/null || true
    rm -rf "$work"
}
trap cleanup EXIT

# The program of this name as `rt run` leaves it; the first build proves it. Another may be named by a variable (PVASERVE, PVAC).
program_of() {
    local program=${2:-crates/$1/out/$1}
    [ -n "${2:-}" ] || [ -x "$program" ] || (cd "crates/$1" && rt run -- --version) </dev/null >/dev/null
    [ -x "$program" ] || { echo "$program is no program" >&2; exit 1; }
    echo "$program"
}

server=$(program_of pvaserve "${PVASERVE:-}")
load=$work/load
rustc --edition 2021 -O -o "$load" bench/host.rs

# So many longouts R0, R1 and so on, each with its number as its value.
records() {
    local number
    for ((number = 0; number < $1; number++)); do
        echo "record(longout, \"R$number\") { field(VAL, \"$number\") }"
    done >"$work/records.db"
}

# Waits until a file has this word, while the process lives.
await() {
    local tries
    for ((tries = 0; tries < 600; tries++)); do
        ! grep -q "$2" "$1" || return 0
        kill -0 "$3" 2>/dev/null || break
        sleep 0.05
    done
    echo "nothing says $2" >&2
    exit 1
}

# Starts a server of the records at a free port ($port, and $udp for searches), as the process $pid, with the words of `more` behind its own.
# Its history may grow as long as a bench lasts.
more=()
start_server() {
    port=$("$load" port) udp=$("$load" udp)
    : >"$work/said"
    "$server" --listen "127.0.0.1:$port" --udp "$udp" --journal 17179869184 "$work/records.db" "${more[@]}" >"$work/said" &
    pid=$!
    pids+=("$pid")
    await "$work/said" listening "$pid"
}

# Ends a process that was started here.
stop() {
    kill "$1" 2>/dev/null || true
    wait "$1" 2>/dev/null || true
    local left=() one
    for one in "${pids[@]}"; do
        [ "$one" = "$1" ] || left+=("$one")
    done
    pids=("${left[@]}")
}
