# What the benches of the server share. It is sourced by a script of this folder, which has gone to the repository's top.

work=$(mktemp -d)
trap 'rm -rf "$work"' EXIT

# The program as `rt run` leaves it; the first build proves it.
server=crates/pvaserve/out/pvaserve
[ -x "$server" ] || (cd crates/pvaserve && rt run -- --version) </dev/null >/dev/null

validation() {
    printf '\xCA\x02\x00\x01\x13\x00\x00\x00\x00\x00\x01\x00\x00\x00\x00\x00\x09anonymous\xFF'
}

# A number in four bytes of little endian.
word() {
    local hex
    printf -v hex '\\x%02X\\x%02X\\x%02X\\x%02X' $(($1 & 255)) $(($1 >> 8 & 255)) $(($1 >> 16 & 255)) $(($1 >> 24 & 255))
    printf "$hex"
}

# A frame of a command, given as two digits, whose payload is read from a file.
frame() {
    printf "\\xCA\\x02\\x00\\x$1"
    word "$(stat -c %s "$2")"
    cat "$2"
}

# What a client sends first: a validation, a channel of X or of another name of one byte, and request 1, which begins by the
# command whose byte is given.
opening() {
    validation
    printf '\xCA\x02\x00\x07\x08\x00\x00\x00\x01\x00\x07\x00\x00\x00\x01%s' "${2:-X}"
    printf "\\xCA\\x02\\x00\\x$1"'\x0C\x00\x00\x00\x00\x00\x00\x00\x01\x00\x00\x00\x08\x80\x00\x00'
}

# Writes the input of a run: the opening with a command and maybe a channel's name, and so many thousands of one message,
# which is read from a file.
make_input() {
    local thousand=$work/thousand
    for _ in $(seq 1000); do cat "$3"; done > "$thousand"
    { opening "$1" "${4:-X}"; for _ in $(seq "$2"); do cat "$thousand"; done; } > "$work/input"
}

# The least processor time of so many runs of a command over the input (three unless `runs` says more), in nanoseconds. Other
# work on the machine disturbs it less than the time that passes.
best() {
    local least=0 spent
    local TIMEFORMAT='%U %S'
    for _ in $(seq "${runs:-3}"); do
        spent=$({ time "$@" < "$work/input" > "$work/output"; } 2>&1 | awk '{ printf "%.0f", ($1 + $2) * 1e9 }')
        if [ "$least" -eq 0 ] || [ "$spent" -lt "$least" ]; then least=$spent; fi
    done
    echo "$least"
}

# The replies have so many bytes in all, of which the ones to the opening have 209.
check_output() {
    local size
    size=$(stat -c %s "$work/output")
    [ "$size" -eq "$1" ] || { echo "the server wrote $size bytes in place of $1" >&2; exit 1; }
}
