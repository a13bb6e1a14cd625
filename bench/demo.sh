#!/bin/sh
# Times rdp_host on the demonstration load of N and of 4N steps, five runs each, which take turns, and prints the ratio of the times and the
# memory for each entry between the two; then the ten functions that take most instructions of the load of N steps.
# Wanted: a ratio of at most 4.4, and at most 1,000 bytes for each entry.
#
# usage: sh bench/demo.sh [N]      (5,000; it needs valgrind for the last table)
bench=demo
. "$(dirname "$0")/programs.sh"
needs "$rdp_host"
steps=${1:-5000}
seed=7

# The processor time of a run of so many steps, in milliseconds; its line stands in $work/output.
load_time() { milliseconds /dev/null "$rdp_host" demo "$seed" "$1"; }

# The entries of the run that $work/output counts.
entries() { awk '{ print $4 }' "$work/output"; }

few=$(load_time "$steps")
many=$(load_time $((4 * steps)))
for round in 2 3 4 5; do
    few=$(least "$few" "$(load_time "$steps")")
    many=$(least "$many" "$(load_time $((4 * steps)))")
done
few_memory=$(memory /dev/null "$rdp_host" demo "$seed" "$steps")
few_entries=$(entries)
cat "$work/output"
many_memory=$(memory /dev/null "$rdp_host" demo "$seed" $((4 * steps)))
many_entries=$(entries)
cat "$work/output"
awk -v steps="$steps" -v few="$few" -v many="$many" -v fm="$few_memory" -v mm="$many_memory" 'BEGIN {
    printf "%d steps: %.2f s of processor time, %d bytes at most; %d steps: %.2f s, %d bytes\n", steps, few / 1000, fm, 4 * steps, many / 1000, mm
}'
ratio=$(awk -v few="$few" -v many="$many" 'BEGIN { printf "%.2f", many / few }')
bytes=$(awk -v more=$((many_memory - few_memory)) -v entries=$((many_entries - few_entries)) 'BEGIN { printf "%.1f", more / entries }')
echo "ratio of the times: $ratio (wanted: 4.4)"
echo "bytes for each of $((many_entries - few_entries)) entries between: $bytes (wanted: 1000)"
want "$ratio" 4.4 'ratio of the times'
want "$bytes" 1000 'bytes for each entry'
if command -v valgrind >/dev/null; then
    total=$(instructions /dev/null "$rdp_host" demo "$seed" "$steps")
    echo "the ten functions that take most of $total instructions, of $steps steps:"
    callgrind_annotate "$work/profile" | grep -v '^--' | grep '%' | sed -n '2,11p'
fi
count_unmet
