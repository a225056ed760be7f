#!/usr/bin/env bash
# Serves gets of a group of 4 members and of one of 256 from a file to a file, beside gets of one record, and shows members per
# second and nanoseconds a member; the same of the group of 256 in a site of 4,000 records. Each member is a whole record, and
# the time in which the site is loaded isn't counted. It is no part of the gate.
# Usage: bench/groups.sh [MEMBERS]
set -euo pipefail
cd "$(dirname "$0")/.."
. bench/serving.sh
thousands=$((${1:-1024000} / 256000))
[ "$thousands" -gt 0 ] || { echo "the number of members is at least 256000" >&2; exit 2; }

# a record of a site; the records 1 to 256 are members of the group M, and the first 4 of them of the group F
record() {
    echo "record(longout, \"$1\") { field(DESC, \"a record of a site\")"
    echo 'field(EGU, "um") field(SCAN, "Passive") field(VAL, "42") field(HIHI, "5000") field(HHSV, "MAJOR")'
    if [ "$1" -le 256 ]; then echo "info(Q:group, { \"M\": { \"m$1\": {+channel:\"VAL\", +putorder:$1} } })"; fi
    if [ "$1" -le 4 ]; then echo "info(Q:group, { \"F\": { \"m$1\": {+channel:\"VAL\", +putorder:$1} } })"; fi
    echo 'field(LOLO, "-5000") field(LLSV, "MAJOR") field(DRVH, "6000") field(DRVL, "-6000") }'
}

# X is the last of the records, and the members of the groups are the ones before it
site_of() {
    for number in $(seq "$1" -1 1); do record "$number"; done
    echo 'record(longout, "X") { field(VAL, "42") }'
}

site_of 256 > "$work/few.db"
site_of 3999 > "$work/many.db"
printf '\xCA\x02\x00\x0A\x09\x00\x00\x00\x00\x00\x00\x00\x01\x00\x00\x00\x00' > "$work/get"

# The time of so many thousands of gets of a channel of a site, each of whose replies has so many bytes.
time_of() {
    local site=$1 name=$2 thousands=$3 size=$4 loaded opened served
    make_input 0A 0 "$work/get" "$name"
    loaded=$(best "$server" --inetd "$work/$site.db")
    opened=$(stat -c %s "$work/output")
    make_input 0A "$thousands" "$work/get" "$name"
    served=$(best "$server" --inetd "$work/$site.db")
    check_output $((opened + size * 1000 * thousands))
    echo $((served - loaded))
}

# A reply has 14 bytes before the bits, and of each member 29 bytes. The last leaf of F is number 40, and that of M 2,560.
single=$(time_of few X $((256 * thousands)) 46)
four=$(time_of few F $((64 * thousands)) $((14 + 7 + 4 * 29)))
many=$(time_of few M "$thousands" $((14 + 5 + 321 + 256 * 29)))
among=$(time_of many M "$thousands" $((14 + 5 + 321 + 256 * 29)))
awk -v n="$((256000 * thousands))" -v s="$single" -v f="$four" -v m="$many" -v a="$among" -v c="$(nproc)" 'BEGIN {
    printf "%d members each, %d cores\n", n, c
    printf "single gets:     %.0f members per second, %.1f ns a member\n", n * 1e9 / s, s / n
    printf "groups of 4:     %.0f members per second, %.1f ns a member, ratio to single gets %.2f\n", n * 1e9 / f, f / n, f / s
    printf "groups of 256:   %.0f members per second, %.1f ns a member, ratio to single gets %.2f\n", n * 1e9 / m, m / n, m / s
    printf "of 4,000 records: %.0f members per second, %.1f ns a member, ratio to single gets %.2f\n", n * 1e9 / a, a / n, a / s
}'
