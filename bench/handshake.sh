#!/bin/sh
# Counts, by valgrind's callgrind, what rdp_host takes to hear a sample client from its Connection Request to the last packet before its
# Font List, 864 bytes in 14 packets, in one piece and byte by byte, with the replies that it writes: the difference of a run over them and
# of one over no byte. Both end as a stream does that ends too early. Then what its Font List takes, with the session's first frame, and
# what an Input packet takes that enters one event and draws nothing, with its take and the frame of a mark alone.
# What is wanted is wanted of hearing alone, which is compiled into its caller: the figures have reading in them too, byte by byte one a byte,
# for which some 40,000 of the 240,000 are.
#
# usage: sh bench/handshake.sh      (it needs valgrind and python3)
bench=handshake
. "$(dirname "$0")/programs.sh"
needs "$rdp_host"
truncated=35

# The sample client with so many Input packets behind it.
sample() { python3 "$here/bench/sample_answers.py" sample "$1"; }

# The instructions of a service of the bytes of a file.
served() { instructions "$1" "$rdp_host" answer 64 48 ann; }

sample 0 >"$work/sample"
font_list=40
head -c $(($(wc -c <"$work/sample") - font_list)) "$work/sample" >"$work/before"
sample 100 >"$work/few"
sample 200 >"$work/many"

table job instructions
ends=$truncated
nothing=$(served /dev/null)
whole=$(served "$work/before")
row 'the handshake, in one piece' $((whole - nothing)) 60000
through="python3 $here/bench/feed.py"
nothing_fed=$(served /dev/null)
fed=$(served "$work/before")
row 'the handshake, byte by byte' $((fed - nothing_fed)) 240000
ends=0
through=
row 'its Font List, with the first frame' $(($(served "$work/sample") - whole))
row 'an Input packet of one event, with its take' $((($(served "$work/many") - $(served "$work/few")) / 100))
count_unmet
