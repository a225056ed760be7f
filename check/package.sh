#!/usr/bin/env bash
# Installs the Debian package of dist/ in a root of its own that has nothing but a base system, starts the server as its unit does, gets a value, and
# removes the package again, behind which no file may be left. Outside the gate, since it wants root. Prints a line for each step.
# Usage: check/package.sh [PACKAGE.deb]
#
# The root is made by debootstrap, where that is there, and else of the files of the packages that this machine's own Debian can't be without. It has
# its own network and process numbers. No systemd runs in it, so that the line of ExecStart is run by hand, as the user nobody; what systemd says of the
# unit is told where systemd-analyze is here.
set -eu
cd "$(dirname "$0")/.."
package=${1-$(ls dist/pvaserve_*_amd64.deb)}
[ "$(id -u)" -eq 0 ] || { echo "check/package.sh wants root: it makes a root of its own" >&2; exit 2; }
room=$(mktemp -d)
root=$room/root
# (what was started there ends with its process numbers)
trap 'rm -rf --one-file-system "$room"' EXIT

failed() {
    echo "FAILED: $1" >&2
    exit 1
}

# The packages without which this machine's Debian doesn't work, and all that these need.
base_packages() {
    local packages more
    packages=$(dpkg-query -W -f '${Package} ${Essential}\n' | sed -n 's/ yes$//p')
    while :; do
        # shellcheck disable=SC2086 # a list of words
        more=$(dpkg-query -W -f '${Package}, ${Pre-Depends}, ${Depends}\n' $packages | tr ',|' '\n' | sed 's/^ *//; s/[ (:].*//' | grep . | sort -u)
        # shellcheck disable=SC2086
        more=$({ dpkg-query -W -f '${Package} ${Status}\n' $more 2>/dev/null || true; } | sed -n 's/ install ok installed$//p' | sort -u)
        [ "$more" != "$packages" ] || break
        packages=$more
    done
    echo "$packages"
}

# Copies those packages to the root: their files, what dpkg keeps of them, and what their installation made.
copy_base() {
    local name at
    mkdir -p "$root"/{dev,proc,sys,tmp,run,etc,usr,var/lib/dpkg/info,var/lib/dpkg/updates,var/log}
    for at in bin sbin lib lib32 lib64 libx32; do
        # (links to what is below usr, which the files' names go through)
        [ ! -L "/$at" ] || cp -P "/$at" "$root/$at"
        [ ! -L "/$at" ] || mkdir -p "$root/usr/$at"
    done
    base_packages >"$room/packages"
    while read -r name; do
        find /var/lib/dpkg/info \( -name "$name.*" -o -name "$name:*" \)
        dpkg-query -L "$name"
    done <"$room/packages" | while read -r at; do
        [ -L "$root$at" ] || { [ ! -e "$at" ] && [ ! -L "$at" ]; } || [ "$at" = /. ] || echo "${at#/}"
    done >"$room/files"
    for at in etc/passwd etc/group etc/shadow etc/ld.so.cache etc/alternatives; do
        find "/$at" -printf '%P\n' | sed "s,^,$at/,; s,/\$,,"
    done >>"$room/files"
    LC_ALL=C sort -u "$room/files" | tar -C / --no-recursion -cf - -T - | tar -C "$root" --keep-directory-symlink -xf -
    awk -v RS= -v ORS='\n\n' 'NR == FNR { wanted[$0]; next } { split($0, lines, "\n"); sub(/^Package: /, "", lines[1]); if (lines[1] in wanted) print }' \
        <(sed 's/$/\n/' "$room/packages") /var/lib/dpkg/status >"$root/var/lib/dpkg/status"
}

make_root() {
    if command -v debootstrap >/dev/null; then
        debootstrap --variant=minbase bookworm "$root" >"$room/debootstrap" 2>&1 || { tail -n 20 "$room/debootstrap" >&2; failed "debootstrap"; }
        echo "a root made by debootstrap: $(dpkg-query --admindir="$root/var/lib/dpkg" -W | wc -l) packages"
    else
        copy_base
        echo "a root made of this machine's base: $(wc -l <"$room/packages") packages"
    fi
}

# Runs a command in the root, with a network, mounts and processes of its own.
inside() {
    # shellcheck disable=SC2016 # the inner shell's variables
    unshare --mount --net --pid --fork --kill-child sh -c '
        root=$1 && shift
        ip link set lo up
        mount --bind "$root" "$root"
        mount -t proc proc "$root/proc"
        mount -t tmpfs tmpfs "$root/dev"
        for device in null zero random urandom; do
            : >"$root/dev/$device" && mount --bind "/dev/$device" "$root/dev/$device"
        done
        exec chroot "$root" env -i PATH=/usr/sbin:/usr/bin:/sbin:/bin HOME=/root LC_ALL=C.UTF-8 DEBIAN_FRONTEND=noninteractive "$@"' sh "$root" "$@"
}

# All that stands in the root, with its kind, mode, size and sum, without what dpkg keeps for itself.
list_root() {
    (cd "$root" && find . -xdev \( -path ./var/lib/dpkg -o -path ./var/log -o -path ./tmp -o -path ./run \) -prune -o -printf '%y %m %s %p %l\n' | sed 's/^d \([0-7]*\) [0-9]* /d \1 /' | LC_ALL=C sort)
    (cd "$root" && find . -xdev \( -path ./var/lib/dpkg -o -path ./var/log -o -path ./tmp -o -path ./run \) -prune -o -type f -print0 | LC_ALL=C sort -z | xargs -0 sha256sum)
    find "$root/var/lib/dpkg/info" -name 'pvaserve*' -printf 'left by dpkg: %P\n'
    grep -A 3 '^Package: pvaserve$' "$root/var/lib/dpkg/status" | sed 's/^/left in the status: /' || true
}

# What is done inside: it runs there, in a shell of the base system alone.
# shellcheck disable=SC2016 # that shell's variables
serve_and_get='
    set -eu
    service=/usr/lib/systemd/system/pvaserve.service
    line=$(sed -n "s/^ExecStart=//p" "$service")
    . /etc/default/pvaserve
    # ($OPTIONS is split as systemd does it, with its quotes heeded)
    eval "set -- $(echo "$line" | sed "s/\${\([A-Z]*\)}/\"\$\1\"/g; s/ \$OPTIONS/ $OPTIONS/")"
    echo "ExecStart: $*"
    mkdir -p /var/lib/pvaserve && chown nobody /var/lib/pvaserve && cd /var/lib/pvaserve
    : >/tmp/said
    setpriv --reuid=65534 --regid=65534 --clear-groups --no-new-privs --bounding-set=-all "$@" >/tmp/said 2>&1 &
    server=$!
    for look in 1 2 3 4 5 6 7 8 9 10; do
        ! grep -q listening /tmp/said || break
        sleep 0.2
    done
    grep -q listening /tmp/said || { cat /tmp/said; echo "the server does not listen"; exit 1; }
    pvac get BL:M1:Pos --server "$LISTEN" >/tmp/got
    cat /tmp/got
    grep -qx "value 1200" /tmp/got || exit 1
    kill "$server"
    { wait "$server" || status=$?; } 2>/dev/null
    [ "$status" -eq 143 ]
'

make_root
list_root >"$room/before"
cp "$package" "$root/tmp/package.deb"
if command -v systemd-analyze >/dev/null; then
    dpkg-deb --fsys-tarfile "$package" | tar -x -C "$room" ./usr/lib ./usr/bin
    systemd-analyze security --offline=true "$room/usr/lib/systemd/system/pvaserve.service" 2>&1 | grep 'Overall exposure' || true
fi
inside dpkg -i /tmp/package.deb >"$room/installed" 2>&1 || { cat "$room/installed" >&2; failed "dpkg -i"; }
echo "installed: $(inside dpkg -L pvaserve | while read -r file; do [ -d "$root$file" ] || echo "$file"; done | wc -l) files"
inside sh -c "$serve_and_get" || failed "the server, or its client"
inside dpkg --remove pvaserve >"$room/removed" 2>&1 || { cat "$room/removed" >&2; failed "dpkg --remove"; }
echo "removed: left for an operator's edits are$(inside dpkg -L pvaserve | while read -r file; do [ ! -f "$root$file" ] || printf ' %s' "$file"; done)"
inside dpkg --purge pvaserve >"$room/purged" 2>&1 || { cat "$room/purged" >&2; failed "dpkg --purge"; }
list_root >"$room/after"
diff "$room/before" "$room/after" || failed "the package left these behind"
echo "purged: no file is left, and none was changed"
