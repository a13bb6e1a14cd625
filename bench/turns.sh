#!/bin/sh
# Counts, by valgrind's callgrind, what a take costs while the session is locked for it, and what sharing tiles costs those who draw:
# a late joiner behind N entries; a take of all tiles of the largest picture, for each tile; a drawing on tiles that were lent and given
# back; and the memory of a new session of the largest picture. A count is the difference of two runs: of all instructions, or of what the
# profile gives for a function with all that it calls (`Seat::take`, which is what a turn does, and `Session::draw`). Then what it costs that
# sixteen viewers watch a window full of text, who are sent it as packed tiles or as orders. A figure that isn't as it is wanted is told.
#
# usage: sh bench/turns.sh      (it needs valgrind)
bench=turns
. "$(dirname "$0")/programs.sh"
. "$here/bench/inputs.sh"
needs "$rdp_host"

# A picture of one tile, so many fills of a pixel by its owner; a viewer who joins late and takes, or nobody.
late() {
    awk -v count="$1" -v joins="$2" 'BEGIN {
        print "size 64 64\ninvite ann owner\ninvite bob view\njoin ann full"
        for (i = 0; i < count; i++) printf "fill %d %d 1 1 %06X\n", i % 64, (i * 7) % 64, (i * 7919) % 16777216
        if (joins) print "join bob full\n@2 take"
    }'
}

# The largest picture, all of it drawn; its owner asks for all tiles and takes them, so many times.
whole() {
    awk -v takes="$1" 'BEGIN {
        print "size 2048 2048\ninvite ann owner\njoin ann plain"
        for (i = 0; i < takes; i++) printf "fill 0 0 2048 2048 %06X\nrefresh 0 0 2048 2048\ntake\n", (i * 7919 + 1) % 16777216
    }'
}

# Fills of one tile, each behind a take that was lent it, or behind none.
drawn() {
    awk -v count="$1" -v takes="$2" 'BEGIN {
        print "size 64 64\ninvite ann owner\njoin ann plain\ntake"
        for (i = 0; i < count; i++) {
            printf "fill 8 8 48 48 %06X\n", (i * 7919 + 1) % 16777216
            if (takes) print "refresh 0 0 64 64\ntake"
        }
    }'
}

# The instructions of a function in the same run. Where the profile has none of that name, a 0 would pass for a figure that is met.
within() {
    script_instructions "$@" >/dev/null
    count=$(inclusive "$function")
    [ "$count" -gt 0 ] || { echo "$bench: the profile has no $function" >&2; exit 1; }
    echo "$count"
}

table 'a late joiner: its join and its first frame' instructions
for entries in 1000 100000 1000000; do
    alone=$(script_instructions late "$entries" 0)
    joined=$(script_instructions late "$entries" 1)
    wanted=
    [ "$entries" -eq 1000 ] && first=$((joined - alone)) || wanted=$((first + 100000))
    row "behind $entries entries" $((joined - alone)) "$wanted"
done
echo
table 'a turn' instructions
function='Seat::take'
once=$(within whole 1)
twice=$(within whole 2)
row 'a take of all 1,024 tiles, for each of them' $(((twice - once) / 1024)) 400
function='Session::draw'
few=$(within drawn 100 0)
many=$(within drawn 200 0)
own=$(((many - few) / 100))
row 'a fill of 48 by 48 on a tile that is own' "$own"
few=$(within drawn 100 1)
many=$(within drawn 200 1)
row 'the same on a tile that was lent and given back' $(((many - few) / 100)) $((own * 12 / 10))
echo
printf 'size 64 64\ntake\n' >"$work/small"
printf 'size 2048 2048\ntake\n' >"$work/large"
small=$(memory "$work/small" "$rdp_host" script)
large=$(memory "$work/large" "$rdp_host" script)
row 'bytes more of a new session of 2,048 by 2,048' $((large - small)) 1048576
echo
table 'sixteen viewers of a window full of text' instructions
few=$(script_instructions window 16 change 2)
many=$(script_instructions window 16 change 4)
row 'all of it changes, and goes to each as 192 tiles' $(((many - few) / 2)) 25000000 open
alone=$(script_instructions window 15 joiner 0)
joined=$(script_instructions window 15 joiner 1)
row 'the last of them joins behind the others, a tile' $(((joined - alone) / 192)) 15000
few=$(script_instructions window 16 'ten fills' 10)
many=$(script_instructions window 16 'ten fills' 20)
row 'ten fills, and a take of each' $(((many - few) / 10)) 110000 open
count_unmet
