# A server of many clients on this machine, for the scripts at the top. They have its program in `program` and a folder of theirs in `room`,
# and end what they started when they end.

# Waits until a file has so many lines.
await() {
    local looks
    for ((looks = 0; looks < 1000; looks++)); do
        [ "$(wc -l <"$1")" -lt "$2" ] || return 0
        sleep 0.02
    done
    return 1
}

# The port of a process' first socket in this table of /proc/net, in this state: tcp and 0A are listening, udp and 07 are bound.
port_of() {
    local process=$1 table=$2 wanted=$3 sockets at state number
    sockets=" $(readlink "/proc/$process/fd/"* | sed -n 's/^socket:\[\(.*\)\]$/\1/p' | tr '\n' ' ')"
    while read -r _ at _ state _ _ _ _ _ number _; do
        [ "$state" = "$wanted" ] && [[ "$sockets" = *" $number "* ]] && echo $((16#${at#*:})) && return
    done <"/proc/net/$table"
}

# Starts a server at this address and port of searches, which ends by itself after two minutes at rest. What it prints is the file
# "$room/said"; its ports, of which the system picks those that are 0, are tcp and udp. It has so many descriptors as `descriptors` says,
# if it says any, and so many turns as `turns` says.
begin() {
    local at=$1 searches=$2
    shift 2
    : >"$room/said"
    {
        [ -z "${descriptors-}" ] || ulimit -n "$descriptors"
        exec "$program" --listen "$at" --udp "$searches" --turns "${turns-2400}" "$@"
    } </dev/null >"$room/said" &
    server=$!
    await "$room/said" 1 || return 1
    tcp=$(port_of "$server" tcp 0A) udp=$(port_of "$server" udp 07)
}

# Ends the server that was started last, by SIGTERM.
finish() {
    kill "$server"
    { wait "$server"; } 2>/dev/null
    ended=$?
}
