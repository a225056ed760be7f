#!/usr/bin/env bash
# Tries the wrong bodies that `rt ci` leaves out for the time they take: must-fail/*.md of these crates, or of every crate, as they stand in the
# last commit. Each must be refused. What `rt ci` has proved on this machine isn't proved again, and what was refused isn't tried again.
# Usage: check/further_edits.sh [CRATE..]
set -eu
cd "$(dirname "$0")/.."
room=$(mktemp -d)
trap 'rm -rf "$room"' EXIT
git clone -q . "$room/all"
cd "$room/all"
rm -f crates/*/must-fail/*.edit
mapfile -t all < <(ls crates)
[ $# -gt 0 ] || set -- "${all[@]}"
tried=()
for crate in "$@"; do
    [ -d "crates/$crate/src" ] || { echo "$crate is no crate" >&2; exit 2; }
    edits=("crates/$crate"/must-fail/*.md)
    [ -e "${edits[0]}" ] || continue
    for edit in "${edits[@]}"; do mv "$edit" "${edit%.md}.edit"; done
    tried+=("$crate")
done
[ ${#tried[@]} -gt 0 ] || { echo "no further edits in $*" >&2; exit 1; }
# (with names rt refuses to run as a merge gate, which this is none of)
CI='' rt ci "${tried[@]}"
