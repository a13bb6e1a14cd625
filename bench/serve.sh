#!/bin/sh
# Serves the clients of bench/serve_load.py over the loopback interface: for each part of the load it starts `rdp_host serve`, lets the
# part's clients come, prints what they saw as rows of a table, and compares the program's status and the line of each link with what the
# clients did. Times are by the clock, so what else the machine does is in them; its load is printed first.
# Who only watches in the parts idle, same and links is `rdp_view`, so each byte that it is sent is read by the proved reader, and its
# status is looked at; the owner's clicks, the times and the clients that mean no good stay with the scripts, since it sends no input.
# Wanted: less than 1% of a processor for 16 idle viewers; a median below 5 ms from the holder's click to the last of at most 16 marks, on a
# machine that does nothing else; memory that stays flat over many links, one after another; fifteen viewers who don't notice a sixteenth
# that never reads.
#
# The clients of bench/serve_hostile.py mean no good; what the honest viewers beside them are sent must be read by `rdp_look` and show what
# the owner drew. Wanted there: what the host does to a client as docs/operating.md says, memory that stays bounded, and viewers who don't notice.
#
# usage: sh bench/serve.sh [PART ..]      (idle clicks rate stuck links, of which idle and links need rdp_view; there are hostile, and same,
#                                          which needs it too; rdp_look is needed by the parts of clients that mean no good: silent
#                                          halves unread resets passers crowd grab full asks. The part crowd
#                                          takes ten minutes: it comes once more, as scarce, to a host that has 64 descriptors.
#                                          It needs python3 and Linux's /proc. MANY=N: the part links has N links, 10,000; DRAWS=N: the
#                                          owner draws N times, 100,000, beside a client that reads nothing)
bench=serve
. "$(dirname "$0")/programs.sh"
needs "$rdp_host"
[ "$#" -gt 0 ] || set -- idle clicks rate stuck links
host=
trap 'rm -rf "$work"; [ -z "$host" ] || kill "$host" 2>/dev/null || true' EXIT

load() { RDP_VIEW=$rdp_view python3 "$here/bench/serve_load.py" "$@"; }

# The clients of a part.
clients() {
    case $part in
    silent | halves | unread | resets | passers | crowd | scarce | grab | full | asks)
        needs "$rdp_look"
        RDP_LOOK=$rdp_look python3 "$here/bench/serve_hostile.py" "$@"
        ;;
    *) load "$@" ;;
    esac
}

# Whether the program's lines are those that the clients expect; else the first that isn't. Where clients are many at once the numbers of
# their links aren't known, and the lines are looked at in the order of viewers.
are_lines_right() {
    case $part in
    crowd | scarce)
        sort -k 2,2n -k 3,3n "$work/lines" >"$work/sorted"
        mv "$work/sorted" "$work/lines"
        ;;
    esac
    awk 'NR == FNR { want[++wanted] = $0; next }
        $0 !~ want[++seen] { printf "line %s, and not %s\n", $0, want[seen]; wrong = 1; exit }
        END { if (wrong) exit 1; if (seen != wanted) { printf "%d lines, and not %d\n", seen, wanted; exit 1 } }' "$work/wanted" "$work/lines"
}

# A part of the load, with a program of its own.
part() {
    part=$1
    port=$(load port)
    size='1024 768'
    # a part whose viewers watch until the host ends, or whose links nobody counts, ends it by SIGTERM
    wanted=0
    case $1 in
    idle | same | grab) wanted=143 ;;
    esac
    case $1 in
    idle | same | links) needs "$rdp_view" ;;
    esac
    [ "$1" != same ] || size='256 192'
    links=$(clients links "$1")
    (
        [ "$1" != scarce ] || ulimit -n 64
        exec "$rdp_host" serve "$port" $size "$links" ann bob cy+ </dev/null >"$work/lines"
    ) &
    host=$!
    # with 3 the clients say that a figure isn't as wanted, once all is done
    ended=0
    clients "$1" "$port" "$host" "$work/wanted" || ended=$?
    case $ended in
    0) ;;
    3) unmet=$((unmet + 1)) ;;
    *) exit 1 ;;
    esac
    ended=0
    wait "$host" || ended=$?
    host=
    [ "$ended" -eq "$wanted" ] || { echo "$bench: $1 ended with status $ended" >&2; exit 1; }
    [ "$wanted" -ne 0 ] || are_lines_right || exit 1
}

[ ! -r /proc/loadavg ] || echo "load before: $(cut -d ' ' -f 1-3 /proc/loadavg), of $(nproc) processors; $(date -u '+%Y-%m-%d %H:%M') UTC"
echo '| what | seen | wanted |'
echo '|---|---:|---:|'
for name in "$@"; do
    part "$name"
    [ "$name" != crowd ] || part scarce
done
count_unmet
