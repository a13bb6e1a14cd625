#!/bin/sh
# Tries the wrong bodies that stand outside of the gate: bench/wrong_bodies/CRATE/NAME.edit, each a wrong edit as those of a crate's
# must-fail/. In a clone of what is committed it puts those of a crate beside those that the gate tries, proves the crate, over what earlier
# checks on this machine kept, and has `rt must-fail` try all of them. For each crate it prints how many the prover refused, and below that
# each one that was accepted or couldn't be tried, and why. It ends with 0 where all were refused.
#
# usage: sh bench/wrong_bodies.sh [CRATE ..]      (with no name: all that have some)
set -u
bench=wrong_bodies
here=$(CDPATH= cd -- "$(dirname -- "$0")/.." && pwd)
edits=$here/bench/wrong_bodies
[ "$#" -gt 0 ] || set -- $(ls "$edits")
for crate in "$@"; do
    [ -d "$edits/$crate" ] || { echo "$bench: none for $crate" >&2; exit 2; }
done
command -v rt >/dev/null || { echo "$bench: no rt here" >&2; exit 2; }
[ -z "$(git -C "$here" status --porcelain -- crates crates.txt)" ] || echo "$bench: what isn't committed below crates/ isn't tried" >&2
work=$(mktemp -d)
trap 'rm -rf "$work"' EXIT
trap 'exit 1' HUP INT TERM
git clone -q "$here" "$work/clone" || exit 2

# A command of the kit's in the clone.
kit() { python3 "$here/bench/rt_summed_once.py" "$@" </dev/null >"$work/said" 2>&1; }

failed=0
for crate in "$@"; do
    folder=$work/clone/crates/$crate
    mkdir -p "$folder/must-fail"
    cp "$edits/$crate"/*.edit "$folder/must-fail/"
    if ! (cd "$folder" && kit check); then
        tail -n 5 "$work/said" >&2
        echo "$crate: it isn't proved as it stands, so none was tried"
        failed=1
        continue
    fi
    (cd "$work/clone" && kit must-fail "$crate") || failed=1
    refused=0
    all=0
    : >"$work/others"
    for edit in "$folder"/must-fail/*.edit; do
        name=$(basename "$edit")
        all=$((all + 1))
        # what was said of it, without its own name
        result=$(sed -n "s|^.*must-fail $crate/$name: ||p" "$work/said" | head -n 1)
        case $result in
            refused*) refused=$((refused + 1)) ;;
            'NOT REFUSED'*) echo "    $name: accepted" >>"$work/others" ;;
            *) echo "    $name: not tried${result:+: $result}" >>"$work/others" ;;
        esac
    done
    echo "$crate: $refused of $all refused"
    cat "$work/others"
    [ "$refused" -eq "$all" ] || failed=1
done
exit "$failed"
