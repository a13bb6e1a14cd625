#!/bin/sh
# Runs each command that README.md shows behind a `$`, in a fresh clone of the commit that is checked out, in which nothing is proved; and once
# more with the proved programs, where they are there. What a command gives is compared with what README says that it gives: text line by
# line, pictures pixel by pixel with the one that stands below the command. A command that this script doesn't know ends it.
#
# A host is started as README says, on its port; where xfreerdp, rdesktop and Xvfb are there they show its session as README says, black windows,
# and the same pixels when `ann` has drawn; `./run view` looks in; and a client of bench/serve_load.py joins it as `ann`. Then lists of words, right and wrong, are
# given to ./run and to the proved programs, which must agree. Not run here: `./run build`, which proves the repository, unless the word `build`
# is given (then its programs are the proved ones), and `rt ci`, the gate.
#
# usage: sh bench/readme.sh [build]      (it needs the kit, python3 and pngtopnm of netpbm; xvfb, freerdp2-x11, rdesktop, xdotool and imagemagick
#                                         for the clients. Without proof each program is built once, for a minute or two of a processor)
bench=readme
. "$(dirname "$0")/programs.sh"
clone=$work/clone
host=
screen=
trap '[ -z "$host$screen" ] || kill $host $screen 2>/dev/null || true; rm -rf "$work"' EXIT

fail() {
    echo "$bench: $*" >&2
    exit 1
}

# A fresh machine has kept nothing.
XDG_CACHE_HOME=$work/cache
export XDG_CACHE_HOME

for tool in python3 pngtopnm rt; do
    command -v "$tool" >/dev/null || fail "no $tool here"
done

seen() { printf '| %s | %s | %s |\n' "$how" "$1" "$2"; }

# The commands of README, one a line, each with the number of its line.
commands() { sed -n '/^\$ /{=;p;}' "$clone/README.md" | paste -d ' ' - - | sed 's/ \$ / /'; }

# What README shows below a command: the lines up to the end of its block, and the first picture behind it.
shown_below() { sed -n "$(($1 + 1)),\$p" "$clone/README.md" | sed '/^```$/,$d'; }
picture_below() { sed -n "$1,\$p" "$clone/README.md" | sed -n 's/^!\[[^]]*\](\(.*\))$/\1/p' | head -n 1; }

# Runs a command in the clone, as a reader types it; what ./run says is kept.
typed() {
    ended=0
    (cd "$clone" && sh -c "$1") </dev/null >"$work/output" 2>"$work/voice" || ended=$?
    [ "$ended" -eq 0 ] || {
        tail -n 5 "$work/voice" >&2
        fail "it ends with $ended: $1"
    }
}

# ./run must say that a run isn't proved, and only of one that isn't.
must_be_told() {
    told=$(grep -c "isn't proved" "$work/voice" || true)
    case $how in
    unproved) [ "$told" -gt 0 ] || fail "nothing says that this isn't proved: $1" ;;
    proved) [ "$told" -eq 0 ] || fail "it isn't proved: $1" ;;
    esac
}

# A command whose output README shows, up to a line of dots.
text() {
    shown_below "$1" >"$work/wanted"
    typed "$2"
    must_be_told "$2"
    if [ "$(tail -n 1 "$work/wanted")" = ... ]; then
        lines=$(($(wc -l <"$work/wanted") - 1))
        [ "$(wc -l <"$work/output")" -gt "$lines" ] || fail "it gives no more lines: $2"
        head -n "$lines" "$work/wanted" >"$work/front" && mv "$work/front" "$work/wanted"
        head -n "$lines" "$work/output" >"$work/front" && mv "$work/front" "$work/output"
    fi
    cmp "$work/wanted" "$work/output" || fail "README shows something else: $2"
    seen "$2" "the $(wc -l <"$work/wanted") lines"
}

# A command whose picture README shows below it.
picture() {
    shown=$(picture_below "$1")
    typed "$2"
    must_be_told "$2"
    pngtopnm "$clone/$shown" | ppm_pixels >"$work/wanted"
    ppm_pixels <"$clone/picture.ppm" >"$work/pixels"
    cmp "$work/wanted" "$work/pixels" || fail "$shown is another picture: $2"
    rm "$clone/picture.ppm"
    seen "$2" "$shown, $(head -n 1 "$work/wanted" | tr ' ' x) pixels"
}

# The look into the host that runs: a picture of its session's size.
look_in() {
    typed "$1"
    must_be_told "$1"
    size=$(ppm_pixels <"$clone/picture.ppm" | head -n 1 | tr ' ' x)
    [ "$size" = "$sides" ] || fail "a session of $sides shows a picture of $size: $1"
    rm "$clone/picture.ppm"
    seen "$1" "status 0, and a picture of $size"
}

# The size of a picture in portable pixel format, and its pixels, without remarks.
ppm_pixels() {
    python3 -c '
import re, sys
head = re.compile(rb"P6\s+(?:#[^\n]*\n\s*)*(\d+)\s+(\d+)\s+255\s")
text = sys.stdin.buffer.read()
found = head.match(text) or sys.exit(f"no picture: {text[:80]}")
sys.stdout.buffer.write(b"%s %s\n" % found.groups() + text[found.end():])'
}

# A client that joins at a port by the name ann, draws in a picture of these sides, sees it and leaves.
visit() {
    (cd "$here/bench" && python3 - "$@") <<'END'
import sys
import serve_load
from serve_load import BYE, Room, click
serve_load.WIDE, serve_load.HIGH = map(int, sys.argv[2].split('x'))
room = Room(int(sys.argv[1]), 0)
viewer = room.join('ann')
for i in range(20): room.follow(click(i))
room.end(viewer, lambda link: link.send(BYE))
END
}

# Waits until something is so, for half an hour: a machine that is busy builds long.
wait_until() {
    patience=18000
    until "$@" >/dev/null 2>&1; do
        patience=$((patience - 1))
        [ "$patience" -gt 0 ] || fail "in vain: $*"
        sleep 0.1
    done
}

# Starts the host of README's first command.
start() {
    port=$(echo "$1" | cut -d ' ' -f 3)
    sides=$(echo "$1" | cut -d ' ' -f 4,5 | tr ' ' x)
    ! is_served || fail "port $port is in use"
    # shellcheck disable=SC2086 # they are words
    (cd "$clone" && exec $1) </dev/null >"$work/lines" 2>"$work/voice" &
    host=$!
    wait_until has_said "serving port $port"
    must_be_told "$1"
    seen "$1" "$(grep -o 'serving port.*' "$work/voice")"
}

has_said() { grep -q "$1" "$work/voice" || ! kill -0 "$host"; }

# Ends it, when one more client was there: nothing is written, and nothing is left.
stop() {
    visit "$port" "$sides"
    seen 'a client of bench/serve_load.py, as ann' 'joined, drew, saw it and left'
    kill -TERM "$host"
    ended=0
    wait "$host" 2>/dev/null || ended=$?
    host=
    [ "$ended" -eq 143 ] || fail "a host that is told to end ends with $ended"
    [ ! -s "$work/lines" ] || fail "it writes $(cat "$work/lines")"
    ! is_served || fail 'a host is left'
    seen 'the host, told to end' 'status 143, no lines, and its port is closed'
}

# Whether a socket listens at the port.
is_served() { awk -v port="$(printf ':%04X' "$port")" '$4 == "0A" && substr($2, length($2) - 4) == port { found = 1 } END { exit !found }' /proc/net/tcp; }

# What the window of a client on a screen shows, in a file of its name.
window() {
    shot=$(DISPLAY=:$1 xdotool search --onlyvisible --name 127.0.0.1 | head -n 1)
    DISPLAY=:$1 import -window "$shot" -depth 8 "ppm:$work/shot" && ppm_pixels <"$work/shot" >"$work/window$1"
}
windows() { window 91 && window 92 && cmp -s "$work/window91" "$work/window92"; }
coloured() { tail -n +2 "$work/window91" | tr -d '\000' | wc -c; }
are_black() { windows && [ "$(coloured)" -eq 0 ]; }
are_drawn() { windows && [ "$(coloured)" -gt 0 ]; }

# The two clients, by README's own commands, each on a screen of its own: their windows are black, and when the left button was pressed in
# the first of them both show what that drew.
clients() {
    for tool in Xvfb xfreerdp rdesktop xdotool import; do
        command -v "$tool" >/dev/null || { seen "$1; $2" "not run: no $tool here"; return; }
    done
    for display in 91 92; do
        Xvfb ":$display" -screen 0 1024x768x24 >"$work/screen" 2>&1 &
        screen="$screen $!"
        wait_until env "DISPLAY=:$display" xdotool getmouselocation
    done
    DISPLAY=:91 sh -c "exec $1" >"$work/client91" 2>&1 </dev/null &
    screen="$screen $!"
    wait_until env DISPLAY=:91 xdotool search --onlyvisible --name 127.0.0.1
    DISPLAY=:92 sh -c "exec $2" >"$work/client92" 2>&1 </dev/null &
    screen="$screen $!"
    wait_until env DISPLAY=:92 xdotool search --onlyvisible --name 127.0.0.1
    wait_until are_black
    seen "$1; $2" "two windows of $(head -n 1 "$work/window91" | tr ' ' x), both black"
    for place in '300 200' '500 400' '600 300'; do
        # shellcheck disable=SC2086 # it is two numbers
        DISPLAY=:91 xdotool mousemove $place click 1
    done
    wait_until are_drawn
    seen 'clicks in the first window' "the same pixels in both, $(coloured) bytes of them not black"
    # shellcheck disable=SC2086 # they are numbers
    kill $screen
    # shellcheck disable=SC2086 # they are numbers
    wait $screen 2>/dev/null || true
    screen=
}

# Words for the modes, accepted ones and others, as a shell reads them; a name of 64 signs is $name.
words() {
    cat <<'END'
script
script x
script ''
script --
-- script
scripts
SCRIPT
record
record 1
''
-x
-
replay
replay 0
replay 01
replay 1 2
replay 18446744073709551615
replay 18446744073709551616
replay 99999999999999999999999
demo 18446744073709551615 0
demo 18446744073709551616 0
demo 0 0
demo 00 0
demo 1
demo 1 -1
demo -1 1
demo +1 1
demo '' 1
demo 1 100001
demo 1 2 3
answer 64 48 ann
answer 64 48 $name
answer 64 48 a$name
answer 64 48 _ann
answer 64 48 .
answer 64 48 -
answer 64 48 ann+
answer 64 48 'a b'
answer 64 48 ann bob
answer 66 48 ann
answer 0 48 ann
answer 4 1 ann
answer 2048 2048 ann
answer 2052 2048 ann
answer 2048 2049 ann
answer 064 48 ann
answer 64 0 ann
serve
serve 0 64 48 1 ann
serve 65536 64 48 1 ann
serve 99999999999999999999 64 48 1 ann
serve 3389 1022 768 1 ann
serve 3389 64 48 0 ann
serve 3389 64 48 65536 ann
serve 3389 64 48 1
serve 3389 64 48 1 ann ann
serve 3389 64 48 1 ann bob bob+
serve 3389 64 48 1 ann +
serve 3389 64 48 1 ann b++
serve 3389 64 48 1 ann+ b
serve 3389 64 48 1 ann -b
serve 3389 64 48 1 ann ''
serve 3389 64 48 1 ann $(seq 64)
look
look 0
look 1
look 01
look 65535
look 65536
look 1 2
look x
view
view 1
view 1 bob
view 1 bob 1
view 0 bob 1 full
view 65536 bob 1 full
view 1 -b 1 full
view 1 bob 0 full
view 1 bob 65536 full
view 1 bob 1 full
view 1 bob 1 plain bpp=16
view 1 bob 1 'full bpp=16'
view 1 bob 1 full bpp=24
view 1 bob 1 marked bc0=1,2 bc2=65535,65535 gc0=0,0 gc9=1,1 cautious fast fast
view 1 bob 1 full bc3=1,2
view 1 bob 1 full gc10=1,2
view 1 bob 1 full bc0=1
view 1 bob 1 full bc0=
view 1 bob 1 full bc0=,
view 1 bob 1 full bc0=01,2
view 1 bob 1 full bc0=1,65536
view 1 bob 1 full bc0=1,2,3
view 1 bob 1 full BC0=1,2
view 1 bob 1 full pointer=5
view 1 bob 1 full plain
view 1 bob 1 fast
view 1 bob 1 bare bare
view 1 bob 1 FULL
view 1 bob 1 ''
view 1 bob 1 full ''
view 1 bob 1 full -fast
END
}

# ./run ends as the program does with these words, writes what it writes, and says that they aren't accepted just where the program refuses
# them; but with `--` among them, which it leaves to the program. (At port 1 nobody takes a call.)
agrees() (
    ended=0
    program=rdp_host
    [ "${1-}" != look ] && [ "${1-}" != view ] || program=rdp_$1
    words_of() { [ "$program" = rdp_host ] || shift; "$clone/crates/$program/out/$program" "$@"; }
    words_of "$@" </dev/null >"$work/wanted" || ended=$?
    ran=0
    (cd "$clone" && ./run "$@") </dev/null >"$work/output" 2>"$work/voice" || ran=$?
    cmp -s "$work/wanted" "$work/output" || return 1
    said=0
    ! grep -q '^run: status 2: ' "$work/voice" || said=2
    case " $* " in
    *' -- '*) [ "$ran" -eq "$ended" ] ;;
    *) [ "$ran" -eq "$ended" ] && [ $((said == 2)) -eq $((ended == 2)) ] ;;
    esac
)

# All of these lists.
lists_agree() {
    words >"$work/words"
    while IFS= read -r line <&4; do
        # shellcheck disable=SC2034 # a list has it
        name=$(printf '%064d' 0)
        eval "agrees $line" || fail "it doesn't go as the program says: ./run $line"
    done 4<"$work/words"
    seen "./run with $(wc -l <"$work/words") lists of words" 'it speaks of just those that the program refuses'
}

# All commands, as they stand in README.
run_all() {
    commands >"$work/commands"
    client=
    while read -r at command <&4; do
        case $command in
        './run serve '*) start "$command" ;;
        'xfreerdp '*) client=$command ;;
        'rdesktop '*)
            clients "$client" "$command"
            ;;
        './run view '*)
            look_in "$command"
            stop
            ;;
        './run script '*' | cut '*) text "$at" "$command" ;;
        './run script '*picture.ppm | './run record '*picture.ppm) picture "$at" "$command" ;;
        './run build') seen "$command" "$built" ;;
        'rt ci') seen "$command" 'not run: the gate' ;;
        *) fail "README has a command that this bench doesn't know: $command" ;;
        esac
    done 4<"$work/commands"
}

git clone -q "$here" "$clone"
echo '| how | command | seen |'
echo '|---|---|---|'
how=unproved
built='not run here: below'
run_all
how=proved
if [ "${1-}" = build ]; then
    (cd "$clone" && ./run build) >"$work/built" 2>&1 || { tail -n 5 "$work/built" >&2; fail './run build proves nothing'; }
    built='run'
elif [ -f "$rdp_host.proved" ] && [ -f "$rdp_look.proved" ] && [ -f "$rdp_view.proved" ]; then
    mkdir -p "$clone/crates/rdp_host/out" "$clone/crates/rdp_look/out" "$clone/crates/rdp_view/out"
    cp "$rdp_host" "$rdp_host.proved" "$clone/crates/rdp_host/out/"
    cp "$rdp_look" "$rdp_look.proved" "$clone/crates/rdp_look/out/"
    cp "$rdp_view" "$rdp_view.proved" "$clone/crates/rdp_view/out/"
    built='not run: the programs are those that it left here'
else
    seen 'all of them' "not run: no proved programs here; './run build' makes them"
    exit 0
fi
run_all
lists_agree
