#!/bin/sh
# Counts, by valgrind's callgrind, what rdp_look takes for what a viewer is sent: an order, a mark, a tile. A count is the difference of two
# runs that differ in how often it stands in the capture, over that difference. So what the process takes to start, to make its picture of
# 2,048 by 2,048 and to write it isn't in it; reading the capture's digits is. The second column is what the profile gives for `feed_client` of
# them, in which the client is fed, or 0 where that was compiled into its caller. `upright_pixels` unpacks a tile and turns its rows over.
# What is wanted of all stands behind: of digits, orders and marks it is what bench/plain takes. Then it times a capture of 100 MB.
#
# usage: sh bench/look.sh      (it needs valgrind)
bench=look
. "$(dirname "$0")/programs.sh"
. "$here/bench/inputs.sh"
needs "$rdp_look"

# A row: what, all instructions, those of the client, and what is wanted of all, as `judge` takes it.
counted() {
    printf '| %-42s | %12s | %12s | %12s |\n' "$1" "$2" "$3" "${4-}${5:+ $5}"
    judge "$1" "$2" "${4-}" "${5-}" "${6-}"
}

# What is wanted of a mark after a fill of a side.
mark_wanted() {
    case $1 in
        1) echo 444 ;;
        10) echo 630 ;;
    esac
}

# The row of one more fill of a side in a packet, by what is wanted of it and an older wish.
order() {
    fed "$(fills 101 "$1")"
    few_all=$all
    few_client=$client
    fed "$(fills 201 "$1")"
    counted "an OpaqueRect order of $1 by $1" $(((all - few_all) / 100)) $(((client - few_client) / 100)) "$2" open "${3-}"
}

printf '| %-42s | %12s | %12s | %12s |\n|---|---:|---:|---:|\n' 'one more' instructions 'the client' wanted
counted 'a digit that is read and not obeyed' "$(digits_read 20000)" '' 3.59
order 1 281 600
order 10 514
for side in 1 10; do
    small=$(fills 1 "$side")
    fed "$small"
    fill_all=$all
    fill_client=$client
    fed "$small$(packet 03000000)"
    counted "a mark after a fill of $side by $side" $((all - fill_all)) $((client - fill_client)) "$(mark_wanted "$side")" open
done
fed "$(tile 60200000fff0c00f)"
counted 'a packed tile of one colour, 8 bytes' "$all" "$client"
counted 'the same, beside its pixels' $((all - pixel_work)) $((client - pixel_work)) 30000
pixels=$(awk 'BEGIN { for (i = 0; i < 3072; i++) printf "%02x", i * 37 % 256 }')
fed "$(tile "f40004${pixels}f3000c010203")"
counted 'a packed tile of 3,081 bytes' "$all" "$client"
counted 'the same, beside its pixels' $((all - pixel_work)) $((client - pixel_work)) 30000

capture "$small$(packet 03000000)" 1 >"$work/line"
{
    echo "1 joined 2048 2048 full"
    yes "$(tail -n 1 "$work/line")" | head -n 534759
} >"$work/capture"
/usr/bin/time -f '%U %M' -o "$work/time" "$rdp_look" 1 <"$work/capture" >"$work/output"
read -r seconds kibibytes <"$work/time"
echo "a capture of $(wc -c <"$work/capture") bytes: $seconds s of processor time (wanted: 0.24, open), $kibibytes KiB (wanted: 40000)"
want "$kibibytes" 40000 'KiB for the capture'
count_unmet
