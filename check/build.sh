# Proving and building pvaserve and pvac of the tree, for the scripts at the top. They stand at the top of the tree, and have a folder of theirs in
# `room`.
. check/memory.sh

# These crates and all that they stand on, by crates.txt, a line each.
crates_below() {
    awk -v wanted="$*" '
        function take(crate, used, count, i) {
            if (!(crate in below) || crate in taken) return
            taken[crate] = 1
            print crate
            count = split(below[crate], used, " ")
            for (i = 1; i <= count; i++) take(used[i])
        }
        { sub(/#.*/, ""); split($0, sides, ":"); split(sides[1], head, " "); if (head[1] != "") below[head[1]] = sides[2] }
        END { count = split(wanted, names, " "); for (i = 1; i <= count; i++) take(names[i]) }' crates.txt
}

# Whether the program of this name is built, and no source, specification or proof that goes into it was changed since.
is_current() {
    local program=crates/$1/out/$1 crate part read=(HANDLES crates.txt)
    [ -x "$program" ] || return 1
    for crate in $(crates_below "$1"); do
        for part in src specs proofs; do
            [ ! -d "crates/$crate/$part" ] || read+=("crates/$crate/$part")
        done
    done
    [ -z "$(find "${read[@]}" -newer "$program" -print -quit)" ]
}

# Copies to a folder all that a proof of these crates reads, without the wrong bodies and the tests of crates of their own.
copy_crates() {
    local to=$1 crate part
    shift
    for crate in $(crates_below "$@"); do
        mkdir -p "$to/crates/$crate" || return 1
        for part in "crates/$crate"/*; do
            case ${part##*/} in
            out | must-fail) ;;
            *) cp -R "$part" "$to/crates/$crate/" || return 1 ;;
            esac
        done
        awk -v crate="$crate" '{ line = $0; sub(/#.*/, ""); sub(/:/, " "); if ($1 == crate) print line }' crates.txt >>"$to/crates.txt"
    done
    cp HANDLES "$to/"
}

# Leaves both programs in crates/NAME/out, proved and built of the tree as it stands, and does nothing where they are there already. Each crate that is
# proved is told in a line.
#
# `rt run` and `rt lib` prove the libraries below a crate one after another, and hold all their proofs in memory. `rt ci` proves as many at a time as
# there are processors and memory for, from nothing or by what it kept of the same files, over the statements of those below alone, and leaves the
# programs. It would try every wrong body and test too, so that it runs over a copy that has only what the programs stand on: neither the order of the
# crates nor the number of processors has to be known here. (`rt ci pvaserve pvac` throws its programs away, and tries the wrong bodies.) What it keeps
# serves the tree's own `rt ci` as well. Where `anew` is set it takes nothing of what was kept.
build_programs() {
    local copy=$room/build name
    is_current pvaserve && is_current pvac && return
    command -v rt >/dev/null || { echo "The Rattle toolchain isn't on the path: rt, which proves and builds, isn't found." >&2; return 1; }
    rm -rf "$copy"
    mkdir -p "$copy" || return 1
    # (what is changed from here on isn't built)
    : >"$room/begun"
    copy_crates "$copy" pvaserve pvac || return 1
    use_processors
    (cd "$copy" && exec rt ci ${anew:+--anew}) </dev/null 2>&1 | tee "$room/build.log" | sed -un 's/^rt: \([a-z_0-9]* proved\)$/  \1/p'
    if [ "${PIPESTATUS[0]}" -ne 0 ]; then
        tail -n 40 "$room/build.log" >&2
        return 1
    fi
    for name in pvaserve pvac; do
        mkdir -p "crates/$name/out" && cp "$copy/crates/$name/out/$name" "crates/$name/out/" || return 1
        touch -r "$room/begun" "crates/$name/out/$name" || return 1
    done
    rm -rf "$copy"
}
