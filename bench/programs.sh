# What the benches share. To be sourced with the bench's name in `bench`: it has where the programs stand, the folder $work for what
# a run reads and writes, and the functions below. PROGRAMS names another folder of programs, and RDP_HOST, RDP_LOOK and RDP_VIEW one of
# them each. A figure is a wish: where one that docs/performance.md shows as met isn't met any more, that is said, and the bench goes on; one
# that was never met is `open`, and only printed. A bench ends with 0 where it was done, whatever its figures, and else with another status.
set -eu
LC_ALL=C
export LC_ALL
here=$(CDPATH= cd -- "$(dirname -- "$0")/.." && pwd)
rdp_host=${RDP_HOST:-${PROGRAMS:-$here/crates/rdp_host/out}/rdp_host}
rdp_look=${RDP_LOOK:-${PROGRAMS:-$here/crates/rdp_look/out}/rdp_look}
rdp_view=${RDP_VIEW:-${PROGRAMS:-$here/crates/rdp_view/out}/rdp_view}
work=$(mktemp -d)
trap 'rm -rf "$work"' EXIT

# Ends the bench where one of these programs isn't there.
needs() {
    for program in "$@"; do
        [ -x "$program" ] || { echo "$bench: no $program; './run build' proves and builds it" >&2; exit 1; }
    done
}

# The instructions of a program's run over an input, by valgrind's callgrind. Its profile stands in $work/profile then, and in
# $work/output what it wrote. A run that ends with another status than that in $ends, 0 at first, ends the bench. What stands in
# $through is run before it all.
ends=0
through=
instructions() {
    input=$1
    shift
    ended=0
    $through valgrind --tool=callgrind --callgrind-out-file="$work/profile" "$@" <"$input" >"$work/output" 2>"$work/said" || ended=$?
    [ "$ended" -eq "$ends" ] || {
        tail -n 3 "$work/output" "$work/said" >&2
        exit 1
    }
    sed -n 's/^.*Collected : \([0-9]*\).*$/\1/p' "$work/said"
}

# The instructions of the last profile in functions whose name has this word, with all that they call. It is 0 where there is none,
# as where each was compiled into its callers.
inclusive() {
    callgrind_annotate --inclusive=yes --threshold=100 "$work/profile" 2>/dev/null |
        awk -v word="$1" '/^ *[0-9]/ && index($0, word) { gsub(",", "", $1); print $1; found = 1; exit } END { if (!found) print 0 }'
}

# The processor time of a program's run over an input, in milliseconds. What else the machine does is hardly in it.
milliseconds() {
    input=$1
    shift
    /usr/bin/time -f '%U %S' -o "$work/time" "$@" <"$input" >"$work/output"
    awk '{ printf "%.0f\n", 1000 * ($1 + $2) }' "$work/time"
}

# The most memory of a program's run over an input, in bytes.
memory() {
    input=$1
    shift
    /usr/bin/time -f %M -o "$work/memory" "$@" <"$input" >"$work/output"
    echo $(($(cat "$work/memory") * 1024))
}

# The lesser of two numbers.
least() {
    if [ "$1" -lt "$2" ]; then echo "$1"; else echo "$2"; fi
}

# A wish that was met: where the figure is above it now, that is said, and `count_unmet`, a bench's last line, says how many there were.
unmet=0
want() {
    awk -v figure="$1" -v most="$2" 'BEGIN { exit !(figure <= most) }' || {
        echo "$bench: $3: $1, and at most $2 is wanted" >&2
        unmet=$((unmet + 1))
    }
}
count_unmet() { [ "$unmet" -eq 0 ] || echo "$bench: figures that aren't as they are wanted, as told above: $unmet" >&2; }

# Looks at a figure, by its name: what is wanted of it, if anything; `open` where that was never met; and then maybe an older wish that is met.
judge() {
    most=$3
    [ "${4-}" != open ] || most=${5-}
    [ -z "$most" ] || want "$2" "$most" "$1"
}

# The head of a table of rows: what they tell of, and in what.
table() { printf '| %-52s | %12s | %12s |\n|---|---:|---:|\n' "$1" "$2" wanted; }

# A row of a table: a text, a number, and the words of `judge`.
row() {
    printf '| %-52s | %12s | %12s |\n' "$1" "$2" "${3-}${4:+ $4}"
    judge "$1" "$2" "${3-}" "${4-}" "${5-}"
}
