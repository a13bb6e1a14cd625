#!/bin/sh
# Builds the programs of bench/plain, which are short and in plain C, and compares them with the proved ones: first whether they write the same
# bytes, to the last one, on what is counted here; then, by valgrind's callgrind, the instructions of both for the same work. What plain C takes
# is what the other benches want where the same work is told there. A count is the difference of two runs, as in these. With `plain` alone it
# does without the proved programs, and has the figures of plain C alone.
#
# usage: sh bench/plain.sh [plain]      (it needs valgrind and a C compiler, which CC may name)
bench=plain
. "$(dirname "$0")/programs.sh"
. "$here/bench/inputs.sh"
alone=${1-}
[ "$alone" = plain ] || needs "$rdp_host" "$rdp_look"
proved_host=$rdp_host
proved_look=$rdp_look
for name in script pack look; do
    ${CC:-cc} -std=c11 -Wall -Wextra -O2 -o "$work/plain_$name" "$here/bench/plain/$name.c"
done

# Makes one or the other what is counted.
take_plain() {
    rdp_host=$work/plain_script
    rdp_look=$work/plain_look
}
take_proved() {
    rdp_host=$proved_host
    rdp_look=$proved_look
}

# What a function says of plain C, and of the proved programs.
both() {
    take_plain
    plain=$("$@")
    proved=-
    [ "$alone" != plain ] || return 0
    take_proved
    proved=$("$@")
}

# A row: what, the two figures, and how many times the first one the second is.
compared() {
    times=-
    [ "$proved" = - ] || times=$(awk -v plain="$plain" -v proved="$proved" 'BEGIN { printf "%.2f", proved / plain }')
    printf '| %-52s | %12s | %12s | %6s |\n' "$1" "$plain" "$proved" "$times"
}
head_row() { printf '\n| %-52s | %12s | %12s | %6s |\n|---|---:|---:|---:|\n' "$1" 'plain C' proved times; }

# Ends the bench where the two write something else over an input.
same() {
    [ "$alone" != plain ] || return 0
    what=$1
    shift
    "$proved_host" script <"$work/input" >"$work/proved_output" 2>&1 || true
    "$work/plain_script" <"$work/input" >"$work/plain_output" 2>&1 || true
    cmp "$work/proved_output" "$work/plain_output" || { echo "$bench: $what: other bytes" >&2; exit 1; }
    compared_inputs=$((compared_inputs + 1))
}
same_picture() {
    [ "$alone" != plain ] || return 0
    "$proved_look" 1 <"$work/input" >"$work/proved_output" 2>&1 || true
    "$work/plain_look" 1 <"$work/input" >"$work/plain_output" 2>&1 || true
    cmp "$work/proved_output" "$work/plain_output" || { echo "$bench: $1: another picture" >&2; exit 1; }
    compared_inputs=$((compared_inputs + 1))
}

# ---- the same bytes

compared_inputs=0
forms='fill copy blit text save restore image brush glyph'
for form in $forms; do
    # the take at the end sends all that the lines drew
    { generate "form:$form" 800; echo take; } >"$work/input"
    same "$form"
done
for form in fill copy; do
    { generate "form:$form" 300 full 1100 512; echo take; } >"$work/input"
    same "$form of 512 by 512"
done
for preset in full marked bare plain; do
    for drawings in 1 10 11; do
        generate "takes:fill:$drawings" 20 "$preset" >"$work/input"
        same "takes of $drawings fills for $preset"
    done
done
generate viewers:1 20000 >"$work/input"
same '20,000 lines'
take_proved
for kind in 'one colour' 'a window' 'grey text' 'black text' 'a photo' noise; do
    tiles "$kind" 1 1 bare >"$work/input"
    sed -n 's/^image 0 64 64 //p' "$work/input" >"$work/tile $kind"
    [ "$alone" != plain ] || continue
    for preset in bare plain; do
        tiles "$kind" 3 1 "$preset" >"$work/input"
        same "tiles of $kind for $preset"
    done
    # the update of a packed tile of 64 by 64 has the count of its bytes, and these
    digits=$("$work/plain_pack" 1 <"$work/tile $kind")
    tiles "$kind" 1 1 bare | "$proved_host" script >"$work/output"
    tail -n 1 "$work/output" | grep -q "3f003f00400040001800""0104$(little $((${#digits} / 2)))${digits}0300" || { echo "$bench: $kind: packed otherwise" >&2; exit 1; }
    compared_inputs=$((compared_inputs + 1))
done
for side in 1 10; do
    capture "$(fills 200 "$side")$(mark)" 11 >"$work/input"
    same_picture "orders of $side by $side"
    capture "$(fills 1 "$side")$(mark)" 11 >"$work/input"
    same_picture "marks after $side by $side"
    capture "$(fills 1 "$side")" 11 >"$work/input"
    same_picture "no mark after $side by $side"
done
if [ "$alone" != plain ]; then
    for preset in marked full; do
        generate viewers:1 20000 | sed "s/marked/$preset/" | "$proved_host" script >"$work/input"
        same_picture "the capture of 20,000 lines for $preset"
    done
fi
[ "$alone" = plain ] || echo "the same bytes on $compared_inputs inputs"

# ---- the same work

head_row 'a line more of a script, instructions'
for form in $forms; do
    both line_of "$form"
    compared "$form"
done
for form in fill copy; do
    both pixel_of "$form"
    compared "a pixel more of it: $form"
done
head_row 'a take, instructions'
both take_of fill 1 1100
compared 'of one fill'
plain_one=$plain
proved_one=$proved
both take_of fill 11 1100
plain=$(((plain - plain_one) / 10))
[ "$alone" = plain ] || proved=$(((proved - proved_one) / 10))
compared 'one fill more in it'
both take_of fill 10 1100
compared 'of ten fills'
head_row 'an entry more, bytes'
for form in fill blit 'text of 20 signs'; do
    both entry_of "$form"
    compared "$form"
done

# The instructions of packing a tile of a kind once.
packing() {
    if [ "$rdp_host" = "$proved_host" ]; then
        script_instructions tiles "$1" 10 1 bare >/dev/null
        a=$(inclusive ::packed_pixels)
        script_instructions tiles "$1" 20 1 bare >/dev/null
        echo $((($(inclusive ::packed_pixels) - a) / 10))
    else
        a=$(instructions "$work/tile $1" "$work/plain_pack" 10)
        b=$(instructions "$work/tile $1" "$work/plain_pack" 20)
        echo $(((b - a) / 10))
    fi
}

# The instructions of a take that sends a tile of a kind, with it.
tile_take() {
    a=$(script_instructions tiles "$1" 10 1 bare)
    b=$(script_instructions tiles "$1" 20 1 bare)
    c=$(script_instructions tiles "$1" 10 0 bare)
    d=$(script_instructions tiles "$1" 20 0 bare)
    echo $(((b - a - (d - c)) / 10))
}
head_row 'a tile, instructions'
for kind in 'one colour' 'a window' 'grey text' 'black text' 'a photo' noise; do
    both tile_take "$kind"
    compared "a take of $kind"
    both packing "$kind"
    compared "packing it alone"
done

# All instructions of bytes once more.
all_of() { fed "$1" && echo "$all"; }

# The difference of what two inputs take, over a number.
more_of() {
    few=$(all_of "$1")
    many=$(all_of "$2")
    echo $(((many - few) / $3))
}
head_row 'a viewer'\''s picture of 2,048 by 2,048, instructions'
both digits_read 20000
compared 'a digit that is read and not obeyed'
for side in 1 10; do
    both more_of "$(fills 101 "$side")" "$(fills 201 "$side")" 100
    compared "an OpaqueRect order of $side by $side"
    both more_of "$(fills 1 "$side")" "$(fills 1 "$side")$(mark)" 1
    compared "a mark after a fill of $side by $side"
done

# Processor time of a run over an input, the least of three, and its memory.
time_of() {
    best=$(milliseconds "$@")
    for round in 2 3; do best=$(least "$best" "$(milliseconds "$@")"); done
    echo "$best"
}
script_time() { time_of "$work/input" "$rdp_host" script; }
script_memory() { echo $(($(memory "$work/input" "$rdp_host" script) / 1024)); }
look_time() { time_of "$work/input" "$rdp_look" 1; }
head_row 'whole runs'
generate viewers:1 100000 >"$work/input"
script_whole() { instructions "$work/input" "$rdp_host" script; }
both script_whole
compared '100,000 fills, a take every 200 lines: instructions'
generate viewers:1 1000000 >"$work/input"
both script_time
compared '1,000,000 such lines: ms'
both script_memory
compared 'KiB'
capture "$(fills 1 10)$(mark)" 1 >"$work/line"
{
    echo "1 joined 2048 2048 full"
    yes "$(tail -n 1 "$work/line")" | head -n 534759
} >"$work/input"
same_picture '100 MB'
both look_time
compared 'a capture of 100 MB with 534,759 marks: ms'
