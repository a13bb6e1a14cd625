#!/bin/sh
# Counts, by valgrind's callgrind, the instructions of packing the tiles of one picture that many viewers ask for: a tile is packed once for each
# depth, and what the first take left is found by the others. No clause says so: a body that packs anew for each viewer sends the same bytes.
# Where the tiles are drawn on between two takes each is packed anew, which shows that the count sees it. It ends with 1 where any of that
# isn't so.
#
# usage: sh bench/packed_once.sh      (it needs valgrind)
bench=packed_once
. "$(dirname "$0")/programs.sh"
. "$here/bench/inputs.sh"
needs "$rdp_host"
viewers=16

# A picture of twelve tiles, on each of which is a line. So many viewers, at these bits for each pixel in turn, ask for all of it and take it,
# one after the other; or each behind the line in another colour.
watched() {
    awk -v viewers="$1" -v depths="$2" -v drawn="$3" '
    function lines(i, x, y) {
        for (x = 0; x < 256; x += 64) for (y = 0; y < 192; y += 64)
            printf "line %d %d %d %d %06X\n", x, y, x + 63, y + 40, (i * 7919 + 8421504) % 16777216
    }
    BEGIN {
        count = split(depths, bits)
        print "size 256 192\ninvite ann owner\ninvite bob view"
        for (v = 1; v <= viewers; v++) {
            at = bits[(v - 1) % count + 1]
            printf "join %s bare%s\n", v == 1 ? "ann" : "bob", at == 24 ? "" : " bpp=" at
        }
        lines(0)
        for (v = 1; v <= viewers; v++) {
            if (drawn && v > 1) lines(v)
            printf "@%d refresh 0 0 256 192\n@%d take\n", v, v
        }
    }'
}

# The instructions of packing in such a run.
packing() {
    script_instructions watched "$@" >/dev/null
    inclusive ::packed_pixels
}

# Whether a count is as many times another one as is wanted, to a tenth.
is_times() {
    echo "packing $1: $2 instructions, and $4 times $3 are wanted"
    awk -v found="$2" -v once="$3" -v times="$4" 'BEGIN { exit !(once > 0 && found >= 0.9 * times * once && found <= 1.1 * times * once) }' || {
        echo "$bench: packing $1 isn't $4 times as much" >&2
        unmet=1
    }
}

once=$(packing 1 24 0)
is_times "for $viewers viewers at 24 bits" "$(packing "$viewers" 24 0)" "$once" 1
both=$(packing 2 '24 16' 0)
is_times "for $viewers viewers at 24 and at 16 bits" "$(packing "$viewers" '24 16' 0)" "$both" 1
is_times "for $viewers viewers, drawn on between" "$(packing "$viewers" 24 1)" "$once" "$viewers"
exit "$unmet"
