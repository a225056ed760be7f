# Frames of pvAccess as text, for the scripts at the top: a frame is an array of bytes, each of two hexadecimal digits
# (pvAccess Protocol Specification, "Protocol messages").

# The bytes of a file of hexadecimal text, in which # begins a comment.
bytes_of() {
    printf '%b' "$(sed -e 's/#.*//' -e 's/[[:space:]]//g' -e 's/../\\x&/g' "$1" | tr -d '\n')"
}

# The bytes of the array frame.
frame_bytes() {
    local escaped
    printf -v escaped '\\x%s' "${frame[@]}"
    printf '%b' "$escaped"
}

# So many bytes of an open file as hexadecimal text. None where they don't come in time.
read_bytes() {
    timeout 20 head -c "$2" <&"$1" | od -An -v -tx1
}

# Reads the next frame of an open file into the array frame.
read_frame() {
    read -r -d '' -a frame <<<"$(read_bytes "$1" 8)"
    [ "${#frame[@]}" -eq 8 ] || return 1
    local size=0 rest
    [ $((0x${frame[2]} & 1)) -eq 1 ] || size=$(number_at 4 4)
    [ "$size" -gt 0 ] || return 0
    read -r -d '' -a rest <<<"$(read_bytes "$1" "$size")"
    frame+=("${rest[@]}")
    [ "${#frame[@]}" -eq $((8 + size)) ]
}

# The number of so many bytes at this place of the frame, lowest byte first.
number_at() {
    local number=0 i
    for ((i = $1 + $2 - 1; i >= $1; i--)); do
        number=$((number * 256 + 0x${frame[i]:-0}))
    done
    echo "$number"
}

# The signed number of four bytes at this place.
int_at() {
    local number
    number=$(number_at "$1" 4)
    echo $((number < 1 << 31 ? number : number - (1 << 32)))
}

# The text at this place: its size, and then its bytes.
text_at() {
    local size=$((0x${frame[$1]:-0})) i
    for ((i = $1 + 1; i <= $1 + size; i++)); do
        printf '%b' "\\x${frame[i]:-3f}"
    done
}

# What a frame of the client says.
client_words() {
    case "${frame[3]}-${frame[16]:-}-${frame[12]:-}" in
    01-*) echo "validation, by the method $(text_at 16)" ;;
    07-*) echo "create a channel of $(text_at 14), under the client's id $(number_at 10 4)" ;;
    0a-08-*) echo "request $(number_at 12 4) begins a get on channel $(number_at 8 4)" ;;
    0a-00-*) echo "request $(number_at 12 4): get" ;;
    0b-08-*) echo "request $(number_at 12 4) begins a put on channel $(number_at 8 4)" ;;
    0b-00-04) echo "request 4: put the mode $(int_at 21), the position $(int_at 25) and the set point $(int_at 29)" ;;
    0b-00-*) echo "request $(number_at 12 4): put $(int_at 19)$([ "${frame[18]:-}" = 02 ] || echo " into another field")" ;;
    *) echo "another message" ;;
    esac
}

# What the reply to a put says of it.
put_outcome() {
    if [ "${frame[13]:-}" = ff ]; then echo "is done"; else echo "failed: $(text_at 14)"; fi
}

# The alarm of a reply to a get, whose severity stands at this place: nothing where there is none.
alarm_at() {
    local severities=("no alarm" MINOR MAJOR INVALID)
    [ "$(number_at "$1" 4)" -eq 0 ] || echo ", with the alarm ${severities[$(number_at "$1" 4)]} $(text_at $(($1 + 8)))"
}

# The type's id in a reply to a beginning, which the structure of a group doesn't have.
type_words() {
    if [ "${frame[15]:-}" = 00 ]; then echo "a structure without an id"; else text_at 15; fi
}

# What a reply to a get of the slide's group says, by the sizes of the texts in it: two messages of alarms and two choices.
slide_words() {
    local mode=$((31 + 0x${frame[26]:-0}))
    local message=$((mode + 7 + 0x${frame[mode + 5]:-0}))
    message=$((message + 8 + 0x${frame[message - 1]:-0}))
    local position=$((message + 17 + 0x${frame[message]:-0}))
    echo "the mode is $(int_at "$mode"), the position $(int_at "$position"), the set point $(int_at $((position + 4)))"
}

# What a frame of the server says.
server_words() {
    case "$((0x${frame[2]} & 1))-${frame[3]}-${frame[12]:-}-${frame[8]:-}" in
    1-02-*) echo "greeting: the server's byte order is little endian" ;;
    0-01-*) echo "validation request: the methods are $(text_at 15) and $(text_at $((16 + 0x${frame[15]})))" ;;
    0-09-*) echo "validated" ;;
    0-07-*) echo "channel $(number_at 8 4) is created, under the server's id $(number_at 12 4)" ;;
    0-0a-08-* | 0-0b-08-*) echo "request $(number_at 8 4) has begun: the channel's type is $(type_words)" ;;
    0-0a-00-03) echo "request 3: $(slide_words)" ;;
    0-0a-00-*) echo "request $(number_at 8 4): the value is $(int_at 17), of second $(number_at $((30 + 0x${frame[29]:-0})) 8)$(alarm_at 21)" ;;
    0-0b-00-*) echo "request $(number_at 8 4): the put $(put_outcome)" ;;
    *) echo "another message" ;;
    esac
}

# Prints the frame: who sent it, what it says, and its bytes.
show_frame() {
    printf '%s %s\n' "$1" "$2"
    printf '%s ' "${frame[@]^^}" | fold -w 48 | sed 's/^/          /; s/ *$//'
    echo
}
