#!/bin/sh
# Runs the benches that measure the programs, one after the other, and keeps the whole output of each in a folder, as NAME.txt, with how it
# ended. It prints that, and how many figures aren't as they are wanted, and ends with 0 where each bench did.
#
# usage: sh bench/all.sh FOLDER [BENCH ..]      (scripts turns look handshake demo view plain serve, of serve the parts clicks, rate and idle.
#                                                PROGRAMS=FOLDER has other programs measured than those that are built here)
here=$(CDPATH= cd -- "$(dirname -- "$0")" && pwd)
[ "$#" -gt 0 ] || { echo 'usage: sh bench/all.sh FOLDER [BENCH ..]' >&2; exit 2; }
folder=$1
shift
[ "$#" -gt 0 ] || set -- scripts turns look handshake demo view plain serve
mkdir -p "$folder" || exit 1
failed=0
for bench in "$@"; do
    parts=
    [ "$bench" != serve ] || parts='clicks rate idle'
    ended=0
    # shellcheck disable=SC2086
    {
        echo "$bench.sh $parts at $(date -u '+%Y-%m-%d %H:%M') UTC, load $(cut -d ' ' -f 1-3 /proc/loadavg) on $(nproc) processors"
        sh "$here/$bench.sh" $parts || ended=$?
        echo "it ended with $ended at $(date -u '+%H:%M')"
    } >"$folder/$bench.txt" 2>&1
    echo "$bench: $ended"
    grep "^$bench: figures that" "$folder/$bench.txt" || :
    [ "$ended" -eq 0 ] || failed=1
done
exit "$failed"
