# The end-to-end checks: the built programs over real pipes and over the network of this machine, for the script at the top. It stands at the top of the
# tree, has a folder of its own in `room`, and counts in `passed` and `failed`.
. check/frames.sh
. check/network.sh

# Counts a case: the program ended with this status, and wrote what this file has.
check() {
    local name=$1 status=$2 written=$3
    if [ "$ended" -eq "$status" ] && cmp -s "$room/written" "$written"; then
        passed=$((passed + 1))
        echo "$name: passed"
    else
        failed=$((failed + 1))
        echo "$name: FAILED, with status $ended and $(wc -c <"$room/written") bytes written"
    fi
}

# The file in pieces of this size, with a pause after each.
slowly() {
    local file=$1 size=$2 at
    for ((at = 0; at < $(wc -c <"$file"); at += size)); do
        tail -c +$((at + 1)) "$file" | head -c "$size"
        sleep 0.02
    done
}

serve() {
    timeout 60 "$program" --inetd X=42
}

# Runs the program with these words on no input.
words() {
    timeout 60 "$program" "$@" <"$room/nothing" >"$room/written"
    ended=$?
}

# Runs the client with these words, its server inside it. What needs no file, port or stream of the system stands in client_cases.
within() {
    timeout 60 "$client" --within "$@" </dev/null >"$room/written"
    ended=$?
}

# Runs the client over the network with these words.
over() {
    timeout 20 "$client" "$@" </dev/null >"$room/written"
    ended=$?
}

# Starts a client that monitors a channel of the server into a file, and waits for its first update. It finds the server by these words.
watch() {
    local file=$1 count=$2
    shift 2
    : >"$file"
    "$client" "$@" monitor BL:M1:Pos --fields value --count "$count" --idle 1000 </dev/null >"$file" &
    watcher=$!
    await "$file" 2
}

# Waits for a client that was started: its output is this file.
watched() {
    { wait "$1"; } 2>/dev/null
    ended=$?
    cp "$2" "$room/written"
}

# Opens a connection to the server, whose number is put into the variable of this name.
connect() {
    local socket
    exec {socket}<>"/dev/tcp/127.0.0.1/$tcp" && printf -v "$1" '%s' "$socket"
}

# Reads so many bytes of a connection, or without a number all up to the end of the stream, and closes it.
hear() {
    local socket=$1 reads=(cat)
    [ $# -eq 1 ] || reads=(head -c "$2")
    timeout 20 "${reads[@]}" <&"$socket" >"$room/written"
    ended=$?
    exec {socket}>&-
}

# What several of the checks below send and wait for.
prepare() {
    bytes_of check/first_path.client.hex >"$room/client"
    bytes_of check/first_path.server.hex >"$room/server"
    head -c 36 "$room/server" >"$room/greeting"

    head -c 45 "$room/server" >"$room/validated"
    : >"$room/nothing"
    bytes_of check/put.client.hex | cat "$room/client" - >"$room/putting"
    echo 7 >"$room/driven"
    printf 'listening\n' >"$room/listening"
    macros=$(cat examples/slide.macros)
}

# One client over standard input and output.
# shellcheck disable=SC2002 # (a pipe is meant, and no file)
over_pipes() {
    cat "$room/client" | serve | cat >"$room/written"
    ended=${PIPESTATUS[1]}
    check "a first client over a pipe" 0 "$room/server"

    # The moment of a put, 12 bytes before the tag, is the system's and isn't compared.
    bytes_of check/put.server.hex | cat "$room/server" - >"$room/put"
    cat "$room/putting" | serve >"$room/whole"
    ended=${PIPESTATUS[1]}
    head -c "$(wc -c <"$room/put")" "$room/whole" >"$room/written"
    check "a put and the get after it" 0 "$room/put"

    # The moment of the put, 12 bytes before the overrun bit set, isn't compared.
    bytes_of check/monitor.client.hex | cat "$room/client" - | serve >"$room/whole"
    ended=${PIPESTATUS[2]}
    bytes_of check/monitor.server.hex | cat "$room/server" - >"$room/monitor"
    { head -c -13 "$room/whole"; tail -c 1 "$room/whole"; } >"$room/written"
    check "a monitor and a put" 0 "$room/monitor"

    slowly "$room/client" 3 | serve >"$room/written"
    ended=${PIPESTATUS[1]}
    check "a first client that writes slowly" 0 "$room/server"

    head -c 40 "$room/client" | serve >"$room/written"
    ended=${PIPESTATUS[1]}
    check "a client that ends inside a frame" 5 "$room/validated"

    serve <"$room/nothing" >/dev/full
    ended=$?
    cp "$room/nothing" "$room/written"
    check "a client that can't be written to" 6 "$room/nothing"

    timeout 60 "$program" --inetd $'X\xff=42' <"$room/client" >"$room/written"
    ended=$?
    check "an argument that isn't UTF-8" 2 "$room/nothing"
}

# The words that the server takes, and the texts that it reads.
by_words() {
    words --listen X=42
    check "words that aren't taken" 2 "$room/nothing"

    words --inetd "$room/missing.db"
    check "a file that isn't there" 3 "$room/nothing"

    printf 'record(longin, "A") { field(VAL, "0x10") }' >"$room/good.db"
    printf 'record(longin, "A") { field(VAL, "1x") }' >"$room/bad.db"
    echo "1 records, 0 groups" >"$room/counts"
    echo "line 1: BadNumber" >"$room/fault"
    words --check "$room/good.db"
    check "a text that is checked" 0 "$room/counts"
    words --check "$room/bad.db"
    check "a text that is wrong" 4 "$room/fault"
    words --inetd "$room/bad.db"
    check "a text that is wrong, and isn't served" 4 "$room/nothing"

    echo "7 records, 1 groups" >"$room/counts"
    words --check examples/slide.db --macros "$macros"
    check "the example, with its group" 0 "$room/counts"

    printf 'record(bo, A) { info(Q:group, { "G": { "a": {+channel:"VAL", +trigger:"b"} } }) }' >"$room/group.db"
    echo "line 0: UnknownTrigger" >"$room/fault"
    words --check "$room/group.db"
    check "a group that is wrong" 4 "$room/fault"
    words --inetd "$room/group.db"
    check "a group that is wrong, and isn't served" 4 "$room/nothing"

    printf 'messages 10026\ncommits 10000\nsum 7642\nupdates 912\nclosed\n' >"$room/drilled"
    words --drill 7
    check "a drill" 0 "$room/drilled"
    words --drill 7
    check "the same drill once more" 0 "$room/drilled"

    words --inetd X=42 --turns 1
    check "a connection of one turn" 8 "$room/greeting"

    for number in {1..4000}; do
        echo "record(longout, \"R$number\") { field(DESC, \"a record\") field(HIHI, \"5\") field(HHSV, \"MAJOR\") }"
    done >"$room/many.db"
    echo "4000 records, 0 groups" >"$room/counts"
    words --check "$room/many.db"
    check "four thousand records" 0 "$room/counts"
    ended=$(ulimit -v 8000 && words --check "$room/many.db" 2>"$room/messages" && echo "$ended")
    check "memory that runs out" 7 "$room/nothing"
}

# The server's ports, its version and its help.
ports_and_texts() {
    # X with a port, which a put of 7 drives
    printf 'record(longout, "X") { field(VAL, "42") field(DTYP, "File") field(OUT, "@file %s") }' "$room/port" >"$room/port.db"
    timeout 60 "$program" --inetd "$room/port.db" <"$room/putting" >"$room/whole"
    ended=$?
    cp "$room/port" "$room/written"
    check "a port that a put drives" 0 "$room/driven"

    timeout 60 "$program" --version <"$room/nothing" >"$room/written"
    ended=$?
    echo "pvaserve 0.1.0" >"$room/version"
    check "the version" 0 "$room/version"

    timeout 60 "$program" --help <"$room/nothing" >"$room/written"
    ended=$?
    cp "$room/written" "$room/help"
    { grep -q '^Usage: pvaserve --listen A.B.C.D:PORT SOURCE ' "$room/help" && grep -q '^--inetd ' "$room/help"; } || : >"$room/help"
    check "the help" 0 "$room/help"
}

# The client with a server inside it.
clients_within() {
    timeout 60 "$client" --within X=42 get X </dev/null 2>"$room/messages" | cat >"$room/written"
    ended=${PIPESTATUS[0]}
    [ -s "$room/messages" ] && : >"$room/written"
    check "a client gets over a pipe, and writes no message" 0 check/get.text
    printf 'record(longout, "X") { field(DTYP, "File") field(OUT, "@file %s") }' "$room/client_port" >"$room/client_port.db"
    within "$room/client_port.db" put X 7
    cp "$room/client_port" "$room/written"
    check "a port that a client's put drives" 0 "$room/driven"
    ended=$(ulimit -v 8000 && within "$room/many.db" get R1 --fields value 2>"$room/messages" && echo "$ended")
    check "a client whose memory runs out" 7 "$room/nothing"
    within "$room/missing.db" get X
    check "a file of the client that isn't there" 4 "$room/nothing"
    timeout 60 "$client" --within X=42 get X </dev/null >/dev/full
    ended=$?
    cp "$room/nothing" "$room/written"
    check "a client that can't print" 4 "$room/nothing"
    timeout 60 "$client" --help </dev/null >"$room/written"
    ended=$?
    cp "$room/written" "$room/help"
    { grep -q '^Usage: pvac get ' "$room/help" && grep -q '^--within SOURCE ' "$room/help"; } || : >"$room/help"
    check "the client's help" 0 "$room/help"
}

# The options that a program's help names, and those of its man page, which are to be the same.
man_pages() {
    for name in pvaserve pvac; do
        timeout 60 "$programs/$name" --help </dev/null >"$room/help"
        ended=$?
        grep -o -e '--[a-z][a-z]*' "$room/help" | sort -u >"$room/written"
        grep -o 'Fl -[a-z][a-z]*' "docs/man/$name.1" | sed 's/Fl -/--/' | sort -u >"$room/options"
        check "the options of $name's man page" 0 "$room/options"
    done
}

# Starts a server, to which many clients come, and which goes on behind this.
clients_of_a_server() {
    begin 127.0.0.1:0 0 examples/slide.db --macros "$macros"
    at="127.0.0.1:$tcp" for_all="127.0.0.1:$udp"
    printf 'BL:M1:Pos\n' >"$room/slide_name"
    sed 's/^X$/BL:M1:Pos/; s/^value 42$/value 1200/' check/get.text >"$room/opened"
    over --search "$for_all" get BL:M1:Pos
    check "a client finds a server by a search, and gets" 0 "$room/opened"
    over --server "$at" get BL:M1:Pos
    check "a client gets of a server that is named" 0 "$room/opened"
    sed 's/^X$/BL:M1:Pos/' check/info.text >"$room/info"
    over --search "$for_all" info BL:M1:Pos
    check "a client asks a server for a type" 0 "$room/info"
    over --server "$at" info BL:M1:Pos
    check "a client asks a server that is named for a type" 0 "$room/info"
    over --server "$at" call server channels
    timeout 60 "$client" --within examples/slide.db --macros "$macros" call server channels </dev/null >"$room/names"
    check "a client calls a server" 0 "$room/names"
    over --search "$for_all" call server channels
    check "a client calls a server that it finds" 0 "$room/names"
    over --search "$for_all" put BL:M1:Pos 5500
    check "a client puts to a server" 0 "$room/slide_name"
    printf 'BL:M1:Pos\nvalue 5500\nalarm.severity 2\nalarm.status 1\nalarm.message "HIHI"\n' >"$room/high"
    over --server "$at" get BL:M1:Pos --fields value,alarm
    check "another client gets what was put" 0 "$room/high"

    watch "$room/watched_1" 3 --server "$at"
    one=$watcher
    watch "$room/watched_2" 3 --search "$for_all"
    over --server "$at" put BL:M1:Pos 10
    over --search "$for_all" put BL:M1:Pos 20
    printf 'BL:M1:Pos\nvalue 5500\nvalue 10\nvalue 20\n' >"$room/updates"
    watched "$one" "$room/watched_1"
    check "a client monitors what others put" 0 "$room/updates"
    watched "$watcher" "$room/watched_2"
    check "a second client, which searched, monitors beside it" 0 "$room/updates"
}

# What that server refuses, and what a second one at its ports comes to.
refusals_of_a_server() {
    printf 'Nobody\n' >"$room/nobody"
    over --server "$at" get Nobody
    check "a channel that a server hasn't" 1 "$room/nobody"
    over --search "$for_all" get Nobody --rounds 2 --idle 3
    check "a search for a channel that no server has" 3 "$room/nobody"
    over --server "$at" put BL:M1:Pos abc
    check "words that give no value of a server's channel" 2 "$room/slide_name"
    over --server "$at" --turns 3 get BL:M1:Pos
    check "a client whose turns are spent" 9 "$room/slide_name"
    words --listen "$at" --udp 0 X=42
    check "an address in use" 6 "$room/nothing"
    words --listen 127.0.0.1:0 --udp "$udp" X=42
    check "a port of searches in use" 6 "$room/nothing"
}

# That server, stopped for a while.
a_server_that_stands_still() {
    kill -STOP "$server"
    over --server "$at" get BL:M1:Pos --idle 3
    check "a server that says nothing" 6 "$room/slide_name"
    over --search "$for_all" get BL:M1:Pos --rounds 2 --idle 3
    check "a server that answers no search" 3 "$room/slide_name"
    kill -CONT "$server"
    printf 'BL:M1:Pos\nvalue 20\n' >"$room/twenty"
    over --search "$for_all" get BL:M1:Pos --fields value
    check "a server that goes on" 0 "$room/twenty"
}

# That server, ended, and another in its place.
a_server_that_ends() {
    watch "$room/watched_1" 2 --server "127.0.0.1:$tcp"
    finish
    cp "$room/said" "$room/written"
    check "a server that is ended by SIGTERM" 143 "$room/listening"
    watched "$watcher" "$room/watched_1"
    check "a client whose server ends" 4 "$room/twenty"
    over --server "$at" get BL:M1:Pos
    check "a server that isn't there" 4 "$room/slide_name"
    over --search "$for_all" get BL:M1:Pos --rounds 2 --idle 3
    check "a search that nobody hears" 3 "$room/slide_name"
    begin "$at" "$udp" examples/slide.db --macros "$macros"
    over --search "$for_all" get BL:M1:Pos
    check "a server that is started again" 0 "$room/opened"
    finish
}

# How many of them show this value at last: once all do, or behind a second.
showing() {
    local value=$1 file shown until=$((${EPOCHREALTIME//[.,]/} + 1000000))
    while :; do
        shown=0
        for file in "${monitored[@]}"; do
            [ "$(grep '^value' "$file" | tail -n 1)" != "value $value" ] || shown=$((shown + 1))
        done
        { [ "$shown" -lt "${#monitored[@]}" ] && [ "${EPOCHREALTIME//[.,]/}" -lt "$until" ]; } || break
        sleep 0.02
    done
    echo "$shown" >"$room/written"
    ended=0
}

# Ten clients monitor, each again and again, and their server is started anew: each sees the new one's value within a second.
ten_monitors() {
    monitored=("$room"/monitored_{1..10})
    touch "$room/monitoring"
    begin "$at" "$udp" examples/slide.db --macros "$macros"
    over --server "$at" put BL:M1:Pos 5500
    for file in "${monitored[@]}"; do
        : >"$file"
        while [ -e "$room/monitoring" ]; do
            timeout 20 "$client" --server "$at" monitor BL:M1:Pos --fields value --count 1000 --idle 1000 </dev/null >>"$file"
            sleep 0.05
        done &
        loops+=("$!")
    done

    echo 10 >"$room/ten"
    showing 5500
    check "ten clients that monitor" 0 "$room/ten"
    finish
    begin "$at" "$udp" examples/slide.db --macros "$macros"
    showing 1200
    check "ten clients that monitor, a second behind a server that is started anew" 0 "$room/ten"
    rm "$room/monitoring"
    finish
    wait "${loops[@]}"
}

# For a minute more clients come at a time, and go, than the server has descriptors for.
more_than_descriptors() {
    descriptors=64 turns=1000000 begin 127.0.0.1:0 0 X=42
    until=$((SECONDS + 60))
    while [ "$SECONDS" -lt "$until" ]; do
        sockets=()
        for _ in {1..100}; do
            connect came && sockets+=("$came")
        done
        sleep 0.5
        for came in "${sockets[@]}"; do
            exec {came}>&-
        done
    done
    over --server "127.0.0.1:$tcp" get X
    check "a client behind more than a server has descriptors for" 0 check/get.text
    over --search "127.0.0.1:$udp" get X
    check "a search behind more clients than a server has descriptors for" 0 check/get.text
    finish
}

# A client that says nothing, to a server that gives such a one up.
a_silent_client() {
    local silent=
    begin 127.0.0.1:0 0 X=42 --silence 1
    connect silent
    hear "$silent"
    check "a client that says nothing is given up" 0 "$room/greeting"
    over --server "127.0.0.1:$tcp" get X
    check "a client beside one that is given up" 0 check/get.text
    finish
}

# Clients whose streams are cut, late, broken or wrong.
# The first client's bytes, and a header that is refused: behind the replies the server ends the stream, which bash can't.
clients_at_fault() {
    local silent='' half='' whole='' broken=''
    begin 127.0.0.1:0 0 X=42
    printf 'garbage!' >"$room/garbage"
    cat "$room/client" "$room/garbage" >"$room/ending"
    connect silent
    connect half
    head -c 40 "$room/ending" >&"$half"
    connect whole
    cat "$room/ending" >&"$whole"
    hear "$whole"
    check "a first client over TCP, to the stream's end" 0 "$room/server"
    connect whole
    cat "$room/garbage" >&"$whole"
    hear "$whole"
    check "a client that sends garbage" 0 "$room/greeting"
    connect broken
    head -c 40 "$room/client" >&"$broken"
    hear "$broken" 45
    check "a client that goes inside a frame" 0 "$room/validated"
    # what a client leaves unread resets its connection, here amid the replies to 2,048 gets
    tail -c 17 "$room/client" >"$room/gets"
    for _ in {1..11}; do
        cat "$room/gets" "$room/gets" >"$room/more"
        mv "$room/more" "$room/gets"
    done
    connect broken
    cat "$room/client" "$room/gets" >&"$broken"
    hear "$broken" 1
    head -c 1 "$room/greeting" >"$room/first_byte"
    check "a client whose link fails" 0 "$room/first_byte"
    over --server "127.0.0.1:$tcp" get X
    check "a client beside all these" 0 check/get.text
    tail -c +41 "$room/ending" >&"$half"
    hear "$half"
    check "a client whose second half comes late" 0 "$room/server"
    hear "$silent" 36
    check "a client that sends nothing" 0 "$room/greeting"
    finish
    cp "$room/said" "$room/written"
    check "a server behind clients at fault" 143 "$room/listening"
}

# Servers with other options, and one that can't print.
servers_of_other_words() {
    begin 127.0.0.1:0 0 X=42 --big
    over --search "127.0.0.1:$udp" get X
    check "a server that answers in big endian" 0 check/get.text
    finish
    words --listen 127.0.0.1:0 --udp 0 X=42 --turns 2
    check "a server whose accepts are made" 0 "$room/listening"
    timeout 60 "$program" --listen 127.0.0.1:0 --udp 0 X=42 </dev/null >/dev/full
    ended=$?
    cp "$room/nothing" "$room/written"
    check "a server that can't print" 6 "$room/nothing"
}

# Runs all these checks over the programs pvaserve and pvac of this folder.
end_to_end() {
    programs=$1 program=$1/pvaserve client=$1/pvac
    prepare
    over_pipes
    by_words
    ports_and_texts
    clients_within
    man_pages
    clients_of_a_server
    refusals_of_a_server
    a_server_that_stands_still
    a_server_that_ends
    ten_monitors
    more_than_descriptors
    a_silent_client
    clients_at_fault
    servers_of_other_words
}
