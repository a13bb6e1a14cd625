#!/bin/sh
# Counts, by valgrind's callgrind, what rdp_view takes for a byte of what a viewer is sent, beside what rdp_look takes for the same byte in a
# capture. A count is the difference of two runs, of one frame and of many, over the bytes between them: so what a program takes to start, its
# connection, its picture of 2,048 by 2,048 and writing it aren't in it. Off rdp_look's count comes what its digits take, two for each byte, by
# those that are read and not obeyed; a line's end stays in it. In rdp_view's count is reading the link and cutting the stream into packets. A
# stand-in for the host, bench/stand_in.py, plays the capture to it; both must print the same picture.
#
# Wanted is at most 1.1 times what rdp_look takes; where that isn't so, it says so and goes on.
#
# usage: sh bench/view.sh      (it needs valgrind and python3)
bench=view
. "$(dirname "$0")/programs.sh"
. "$here/bench/inputs.sh"
needs "$rdp_look" "$rdp_view"
stand_in="python3 $here/bench/stand_in.py"
wanted=1.10

# How many bytes the frames have together, beside the first.
played=200000

# The instructions of a capture in which another viewer is sent so many bytes, ten times.
unseen() {
    bytes=$(awk -v count="$1" 'BEGIN { for (i = 0; i < count; i++) printf "%02x", i * 37 % 256 }')
    { printf '1 joined 64 64 full\n2 joined 64 64 full\n'; for i in 1 2 3 4 5 6 7 8 9 10; do echo "2 $bytes"; done; } >"$work/capture"
    instructions "$work/capture" "$rdp_look" 1
}

# What both take for a capture of so many frames.
shown() {
    capture "$1" "$2" >"$work/capture"
    through=
    looked=$(instructions "$work/capture" "$rdp_look" 1)
    mv "$work/output" "$work/picture"
    through=$stand_in
    viewed=$(instructions "$work/capture" "$rdp_view" PORT ann "$2" full)
    cmp -s "$work/picture" "$work/output" || { echo "$bench: both print something else" >&2; exit 1; }
}

# A row: a frame of so many bytes, and what a byte takes.
frame() {
    size=$((${#2} / 2))
    more=$((played / size))
    shown "$2" 1
    looked_first=$looked
    viewed_first=$viewed
    shown "$2" $((more + 1))
    awk -v what="$1" -v size="$size" -v count=$((more * size)) -v looked=$((looked - looked_first)) -v viewed=$((viewed - viewed_first)) -v digit="$digit" -v wanted="$wanted" 'BEGIN {
        look = looked / count - 2 * digit
        view = viewed / count
        printf "| %-36s | %6d | %10.2f | %10.2f | %6.2f | %6s |\n", what, size, look, view, view / look, wanted
        exit view > wanted * look
    }' || {
        echo "$bench: $1: more than $wanted times" >&2
        unmet=$((unmet + 1))
    }
}

# What a digit takes that is read and not obeyed.
few=$(unseen 20000)
many=$(unseen 40000)
digit=$(awk -v more=$((many - few)) 'BEGIN { printf "%.4f", more / 400000 }')

printf '| %-36s | %6s | %10s | %10s | %6s | %6s |\n' 'a frame' bytes rdp_look rdp_view times wanted
echo '|---|---:|---:|---:|---:|---:|'
frame 'a mark alone' "$(mark)"
frame 'a fill of 10 by 10, a mark' "$(fills 1 10)$(mark)"
frame 'a hundred fills of 10 by 10, a mark' "$(fills 100 10)$(mark)"
frame 'a packed tile of one colour, a mark' "$(tile 60200000fff0c00f)$(mark)"
pixels=$(awk 'BEGIN { for (i = 0; i < 3072; i++) printf "%02x", i * 37 % 256 }')
frame 'a packed tile of 3,081 bytes, a mark' "$(tile "f40004${pixels}f3000c010203")$(mark)"
count_unmet
