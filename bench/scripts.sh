#!/bin/sh
# Counts, by valgrind's callgrind, what rdp_host takes for a line of each form, for a take by what is in it, and for a tile by what it
# shows; then it counts and times scripts of N and of 2N lines, and runs one of the greatest size. A count is the difference of two runs that
# differ in how many lines, takes or tiles there are, over that difference: what the process takes to start, and all lines before, aren't
# in it. Drawings are of 16 by 16 pixels where nothing else is said. What is wanted of a figure stands beside it, where that is said.
#
# usage: sh bench/scripts.sh [N]      (N lines, 100,000; it needs valgrind)
bench=scripts
. "$(dirname "$0")/programs.sh"
. "$here/bench/inputs.sh"
needs "$rdp_host"
timed=${1:-100000}
greatest=268435456

# A script of the greatest size, to the byte: fills with a take every 200 lines, and takes of five and of eight bytes at its end.
greatest_script() {
    awk -v left="$greatest" 'BEGIN {
        line = "size 1024 768"
        for (i = 2; left > 200; i++) {
            print line
            left -= length(line) + 1
            line = i % 200 == 0 ? "take" : sprintf("fill %d %d %d %d %06X", (i * 37) % 1000, (i * 53) % 700, 1 + i % 60, 1 + i % 50, (i * 7919) % 16777216)
        }
        for (; left % 5 != 0; left -= 8) print "@1 take"
        for (; left > 0; left -= 5) print "take"
    }'
}

# The instructions of a take that sends a tile of a kind, and of them those of packing it; by what it shows, a preset, a name, what is
# wanted of packing, as `judge` takes it.
tile_of() {
    a=$(script_instructions tiles "$1" 10 1 "$2")
    p=$(inclusive ::packed_pixels)
    b=$(script_instructions tiles "$1" 20 1 "$2")
    q=$(inclusive ::packed_pixels)
    bytes=$(tail -n 1 "$work/output" | awk '{ print (length($2) / 2) }')
    c=$(script_instructions tiles "$1" 10 0 "$2")
    d=$(script_instructions tiles "$1" 20 0 "$2")
    printf '| %-12s | %12d | %12d | %12s | %8d |\n' "$3" $(((b - a - (d - c)) / 10)) $(((q - p) / 10)) "$4${5:+ $5}" "$bytes"
    judge "packing $3" $(((q - p) / 10)) "$4" "${5-}" "${6-}"
}

# What is wanted of a line of a form, of a pixel more of it, of an entry of it; where bench/plain does the same it is its figure.
line_wanted() {
    case $1 in
        fill) echo 1039 open ;;
        copy) echo 1481 open ;;
        blit) echo 1263 open ;;
        text) echo 3044 open ;;
        save) echo 1231 open ;;
        restore) echo 998 open ;;
    esac
}
pixel_wanted() {
    case $1 in
        fill) echo 0.45 ;;
        dst) echo 3.3 ;;
        pat) echo 7 ;;
        copy) echo 0.49 open 2.06 ;;
    esac
}
entry_wanted() {
    case $1 in
        fill) echo 48 open 128 ;;
        blit) echo 48 open 150 ;;
        'text of 20 signs') echo 386 open ;;
        'a key that draws nothing' | mouse) echo 160 ;;
    esac
}

table 'a line more of a form' instructions
for form in fill dst pat copy blit blit3 text line save restore image brush glyph key char mouse refresh 'suppress, allow' 'take, with nothing due' 'join, leave'; do
    row "$form" "$(line_of "$form")" $(line_wanted "$form")
done
for form in fill dst pat copy; do
    row "a pixel more of it: $form" "$(pixel_of "$form")" $(pixel_wanted "$form")
done
echo
table 'an entry more of a form' bytes
for form in fill blit 'text of 20 signs' 'a key that draws nothing' mouse; do
    row "$form" "$(entry_of "$form")" $(entry_wanted "$form")
done
echo
table 'a take' instructions
for form in fill blit text; do
    one=$(take_of "$form" 1 1100)
    eleven=$(take_of "$form" 11 1100)
    more=$(((eleven - one) / 10))
    if [ "$form" = fill ]; then
        row "of one $form" "$one" 1468 open
        row "one $form more in it" "$more" 325 open
    else
        row "of one $form" "$one"
        row "one $form more in it" "$more"
    fi
done
row 'of ten fills, behind 1,100 entries' "$(take_of fill 10 1100)" 4412 open
row 'of ten fills, behind 100,000 entries' "$(take_of fill 10 100000)" 4412 open
echo
printf '| %-12s | %12s | %12s | %12s | %8s |\n' 'a tile' 'its take' packing wanted bytes
printf '|---|---:|---:|---:|---:|\n'
tile_of 'one colour' bare 'one colour' 10919
tile_of 'a window' bare 'a window' 10813
tile_of 'grey text' bare 'grey text' 26198 open 55236
tile_of 'black text' bare 'black text' 29282 open 58061
tile_of 'a photo' bare 'a photo' 95681 open 150000
tile_of noise bare noise 34719
tile_of noise plain unpacked ''
echo

# Counts and times scripts of N and of 2N lines. The times are the least of five runs each, which take turns, so that what else the
# machine does meets both.
time_both() {
    generate "viewers:$1" "$timed" >"$work/single"
    generate "viewers:$1" $((2 * timed)) >"$work/double"
    few=$(instructions "$work/single" "$rdp_host" script)
    many=$(instructions "$work/double" "$rdp_host" script)
    single=$(milliseconds "$work/single" "$rdp_host" script)
    double=$(milliseconds "$work/double" "$rdp_host" script)
    for round in 2 3 4 5; do
        single=$(least "$single" "$(milliseconds "$work/single" "$rdp_host" script)")
        double=$(least "$double" "$(milliseconds "$work/double" "$rdp_host" script)")
    done
    awk -v viewers="$1" -v lines="$timed" -v few="$few" -v many="$many" -v single="$single" -v double="$double" 'BEGIN {
        printf "| fills seen by %d: %d lines, and %d | %.0f instructions, %.2f times; %.2f s, %.2f times | 2.2 |\n", viewers, lines, 2 * lines, few, many / few, single / 1000, double / single
    }'
    want "$many" $((few * 22 / 10)) "instructions of twice as many fills seen by $1"
    want "$double" $((single * 22 / 10)) "milliseconds of twice as many fills seen by $1"
}

printf '| script | seen | wanted |\n|---|---:|---:|\n'
time_both 1
full=$(memory "$work/double" "$rdp_host" script)
fills=$(grep -c fill "$work/double")
printf 'size 1024 768\ntake\n' >"$work/empty"
empty=$(memory "$work/empty" "$rdp_host" script)
awk -v fills="$fills" -v empty="$empty" -v full="$full" 'BEGIN { printf "| memory for each of %d fills | %.0f bytes | 450 |\n", fills, (full - empty) / fills }'
want $(((full - empty) / fills)) 450 'memory for each fill'
time_both 16
greatest_script >"$work/greatest"
[ "$(wc -c <"$work/greatest")" -eq "$greatest" ]
/usr/bin/time -f '%U %S %M' -o "$work/time" "$rdp_host" script <"$work/greatest" >"$work/output"
read -r user system kibibytes <"$work/time"
echo "| of $greatest bytes | $user s and $system s in the system, $kibibytes KiB | 5.9 s, 0.5 s |"
want "$user" 5.9 'seconds for the greatest script'
want "$system" 0.5 'seconds in the system for the greatest script'

# A frame of all tiles of the largest picture, none of whose pixels is like its neighbours.
all_tiles() {
    awk 'BEGIN {
        print "size 2048 2048\ninvite ann owner\njoin ann plain"
        printf "image 0 64 64 "
        for (i = 0; i < 4096; i++) printf "%06X", int(i * 2654435761 % 4294967296 / 256)
        print ""
        for (i = 0; i < 1024; i++) print "blit " i % 32 * 64 " " int(i / 32) * 64 " 64 64 CC 0 0 0"
        print "take"
    }'
}
all_tiles >"$work/tiles"
/usr/bin/time -f '%U %M' -o "$work/time" "$rdp_host" script <"$work/tiles" >"$work/output"
read -r user kibibytes <"$work/time"
echo "| a frame of all tiles of the largest picture | $user s, $kibibytes KiB | 40 MB |"
want "$kibibytes" 40000 'KiB for a frame of all tiles'

# How often it writes, where strace is there to count it.
if command -v strace >/dev/null; then
    strace -f -c -e trace=write -o "$work/calls" "$rdp_host" script <"$work/greatest" >"$work/output"
    row 'its calls of write' "$(awk '$NF == "write" { print $4 }' "$work/calls")"
fi
count_unmet
