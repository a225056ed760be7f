# How many gigabytes of memory are free, under the limits of the control group too; 0 where that isn't told.
free_gigabytes() {
    local free limit held pair in=/sys/fs/cgroup
    free=$(awk '/^MemAvailable:/ { print $2 }' /proc/meminfo 2>/dev/null)
    free=$((1024 * ${free:-0}))
    for pair in memory.max:memory.current memory/memory.limit_in_bytes:memory/memory.usage_in_bytes; do
        limit=$(cat "$in/${pair%:*}" 2>/dev/null) held=$(cat "$in/${pair#*:}" 2>/dev/null)
        # (a group without a limit says `max`, or a number above all memory)
        [[ "$limit" =~ ^[0-9]{1,18}$ && "$held" =~ ^[0-9]+$ ]] && [ $((limit - held)) -lt "$free" ] && free=$((limit - held))
    done
    echo $((free / 1000000000))
}

# Has rt use every processor where memory is there for it: it plans on up to twice what checks take, of which none was seen to take more than 5 GB,
# and leaves processors idle.
use_processors() {
    if [ -z "${RT_JOBS-}" ] && [ "$(free_gigabytes)" -ge $((5 * $(nproc))) ]; then
        RT_JOBS=$(nproc)
        export RT_JOBS
    fi
}
