# The release in dist/, and which programs a script runs. For the scripts at the top: they stand at the top of the tree, and have a folder of theirs in
# `room`.
. check/build.sh

# Whether a release stands in dist/.
has_release() {
    [ -f dist/RELEASE ]
}

# What dist/RELEASE says: the version, the commit that it was built from, or the kit that proved it.
release_says() {
    sed -n "s/^$1 //p" dist/RELEASE
}

# Whether each file of the release is there, and is the one that its sum was taken of.
release_holds() {
    local kind
    for kind in "-$(release_says version)-x86_64-linux.tar.xz" "_$(release_says version)_amd64.deb"; do
        grep -qx "[0-9a-f]\{64\}  pvaserve$kind" dist/RELEASE || return 1
    done
    grep '^[0-9a-f]\{64\}  pvaserve[-_]' dist/RELEASE | (cd dist && sha256sum --check --strict --quiet)
}

# Unpacks the release into a folder: its programs are bin/pvaserve and bin/pvac there, whose sums hold, and its man pages stand in share/man/man1.
unpack_release() {
    local to=$1 version
    version=$(release_says version)
    mkdir -p "$to" || return 1
    if command -v xz >/dev/null; then
        tar -xJf "dist/pvaserve-$version-x86_64-linux.tar.xz" -C "$to" --strip-components=1 || return 1
    elif command -v dpkg-deb >/dev/null; then
        # (a small Debian has no xz, and the package has the same programs)
        dpkg-deb --fsys-tarfile "dist/pvaserve_${version}_amd64.deb" | tar -x -C "$to" --strip-components=2 ./usr/bin ./usr/share/man || return 1
        gzip -d "$to"/share/man/man1/*.gz || return 1
    else
        echo "The release is packed by xz, which isn't here: install it (xz-utils, or xz)." >&2
        return 1
    fi
    grep '^[0-9a-f]\{64\}  bin/' dist/RELEASE | (cd "$to" && sha256sum --check --strict --quiet)
}

# Puts the programs that stand in crates/NAME/out side by side into a folder.
link_built() {
    local name
    mkdir -p "$1" || return 1
    for name in pvaserve pvac; do
        ln -sf "$PWD/crates/$name/out/$name" "$1/$name" || return 1
    done
}

# Chooses the programs to run, and says which they are. With --build they are those of the tree, which are proved and built first; else those of the
# release, or, where there is none, those that were built of the tree before. Their folder is then `programs`, and that of their man pages `pages`.
# shellcheck disable=SC2034 # (pages is for ./install)
choose_programs() {
    programs=$room/programs/bin pages=docs/man
    if [ "${1-}" = --build ]; then
        is_current pvaserve && is_current pvac ||
            echo "Proving and building pvaserve and pvac of this tree. On a machine that proved nothing of it before, that takes more than half an hour."
        build_programs && link_built "$programs" || return 1
        echo "pvaserve and pvac were built of this tree, and all that they stand on is proved."
    elif has_release; then
        { release_holds && unpack_release "$room/programs"; } || { echo "The release in dist/ isn't whole." >&2; return 1; }
        pages=$room/programs/share/man/man1
        echo "pvaserve and pvac $(release_says version), the release in dist/. It was built from commit $(release_says commit | cut -c 1-12), proved by $(release_says kit)."
    elif [ -x crates/pvaserve/out/pvaserve ] && [ -x crates/pvac/out/pvac ]; then
        link_built "$programs" || return 1
        echo "No release stands in dist/: pvaserve and pvac are those that were built of this tree before$(is_current pvaserve && is_current pvac || echo ", which has changed since")."
    else
        echo "No release stands in dist/, and no program of this tree is built. $0 --build proves and builds them, which takes the Rattle toolchain, and more than half an hour." >&2
        return 1
    fi
}
