#!/bin/sh
# Makes the package twice, installs it in a scratch Debian of this machine's release, and uses it there: the programs, their manual pages,
# the examples, the unit of a room. Wanted: the same bytes both times; `rdp_host demo 7 100` writes there what it writes here; `man` shows both
# pages; `systemd-analyze verify` finds nothing, and `systemd-analyze security` says at most 2.0; a room serves a client under the limits
# of its unit, and makes no call of the system that the unit refuses; and nothing stays behind when the package is removed.
#
# What runs the room under its limits is systemd (`systemd-run`), where the machine was started by it; else `prlimit` and `setpriv`, with the
# same figures for descriptors, threads and core files, without capabilities and without a way to new ones, as another user: memory, addresses
# and calls are systemd's alone. Which calls it makes is seen by strace, where that is there.
#
# usage: sh bench/package.sh      (as root; it needs git, dpkg-dev, debootstrap, python3 and a mirror of Debian, MIRROR=URL)
bench=package
. "$(dirname "$0")/programs.sh"
needs "$rdp_host" "$rdp_look" "$rdp_view"
mirror=${MIRROR-http://deb.debian.org/debian}
root=$work/root
room=maths
unit=rdp-host@$room.service
# systemd-analyze takes ten times what it prints
most_exposed=20
host=
trap '[ -z "$host" ] || kill "$host" 2>/dev/null || true; rm -rf "$work"' EXIT

fail() {
    echo "$bench: $*" >&2
    exit 1
}

[ "$(id -u)" -eq 0 ] || fail 'a scratch Debian needs root'
for tool in git debootstrap dpkg-shlibdeps python3; do
    command -v "$tool" >/dev/null || fail "no $tool here; Debian has it"
done

seen() { printf '| %s | %s |\n' "$1" "$2"; }

# Runs a command, and shows what it says where it fails.
quietly() { "$@" >"$work/said" 2>&1 || { tail -n 20 "$work/said" >&2; fail "it failed: $*"; }; }

# A command in the scratch Debian, which has /proc for as long as it runs.
in_root() {
    # shellcheck disable=SC2016 # the words are those of the inner shell
    unshare --mount sh -c 'mount -t proc proc "$0/proc" && exec chroot "$0" env -i PATH=/usr/sbin:/usr/bin:/sbin:/bin LC_ALL=C MANWIDTH=120 "$@"' "$root" "$@"
}

make_package() { sh "$here/packaging/package.sh" "$rdp_host" "$rdp_look" "$rdp_view" "$1" 2>"$work/said" || { cat "$work/said" >&2; exit 1; }; }

# The words of a field of the unit.
field() { sed -n "s/^$1=//p" "$here/packaging/rdp-host@.service"; }

# The unit's fields as words of systemd-run, but for what names it and its files.
properties() { sed -n '/^LimitNOFILE=/,/^UMask=/s/^\([A-Za-z]*=.*\)$/--property=\1/p' "$here/packaging/rdp-host@.service"; }

# Is a command, under the unit's limits.
limited() {
    case $(systemctl is-system-running 2>/dev/null || true) in
    running | degraded)
        properties >"$work/properties"
        while IFS= read -r property; do set -- "$property" "$@"; done <"$work/properties"
        exec systemd-run --pipe --wait --quiet --setenv=MALLOC_ARENA_MAX=1 "$@"
        ;;
    *)
        exec prlimit --nofile="$(field LimitNOFILE)" --nproc="$(field TasksMax)" --core="$(field LimitCORE)" \
            setpriv --reuid=65534 --regid=65534 --clear-groups --no-new-privs --bounding-set=-all --inh-caps=-all env -i MALLOC_ARENA_MAX=1 "$@"
        ;;
    esac
}

# A client, at a port, that joins as ann, draws and leaves.
visit() {
    (cd "$here/bench" && python3 - "$1") <<'END'
import sys
from serve_load import BYE, Room, click
room = Room(int(sys.argv[1]), 0)
viewer = room.join('ann')
for i in range(20): room.follow(click(i))
room.end(viewer, lambda link: link.send(BYE))
END
}

# A room of one link under its limits, with the size and the names of its file, as $trace sees it, and that client.
serve_one() {
    # shellcheck disable=SC2046 # they are words
    set -- $(sed -n 's/^SERVE=//p' "$root/etc/pelzsukan/$room.conf")
    width=$2
    height=$3
    shift 4
    port=$(python3 "$here/bench/serve_load.py" port)
    # shellcheck disable=SC2086 # they are words
    limited $trace "$root/usr/bin/rdp_host" serve "$port" "$width" "$height" 1 "$@" </dev/null >"$work/lines" 2>"$work/said" &
    host=$!
    visit "$port"
    wait "$host" || fail "the room ended with status $?: $(cat "$work/said")"
    host=
    [ "$(cat "$work/lines")" = '1 1 0 0' ] || fail "the room wrote $(cat "$work/lines")"
}

# The calls of the traced program, and those of them that the filter of its unit refuses, by systemd's own lists.
traced_calls() { sed -n '/execve("[^"]*rdp_host"/,$p' "$work/trace" | sed -n 's/^[0-9]* *\([a-z0-9_]*\)(.*$/\1/p' | sort -u; }
refused_calls() {
    in_root systemd-analyze syscall-filter --no-pager >"$work/filters" 2>"$work/said"
    python3 - "$work/filters" "$work/calls" "$(field SystemCallFilter | tr '\n' ' ')" <<'END'
import sys
groups = {}
with open(sys.argv[1]) as it:
    for line in it:
        word = line.strip()
        if line.startswith('@'): group = groups.setdefault(word, set())
        elif word and not word.startswith('#') and groups: group.add(word)
def calls(word): return {it for inner in groups[word] for it in calls(inner)} if word.startswith('@') else {word}
allowed, forbidden = set(), set()
for words in sys.argv[3].replace('~', '~ ').split('~'):
    for word in words.split(): (forbidden if words.startswith(' ') else allowed).update(calls(word))
with open(sys.argv[2]) as it: print(*sorted(set(it.read().split()) - (allowed - forbidden)))
END
}

echo '| what | seen |'
echo '|---|---|'
package=$(make_package "$work/once")
cmp "$package" "$(make_package "$work/twice")"
seen 'the package, twice the same' "$(basename -- "$package"), $(wc -c <"$package") bytes"
seen 'it wants' "$(dpkg-deb --field "$package" Depends)"

# shellcheck source=/dev/null
release=$(. /etc/os-release && echo "$VERSION_CODENAME")
quietly debootstrap --variant=minbase --include=man-db,systemd "$release" "$root" "$mirror"
quietly dpkg --root="$root" --install "$package"
# shellcheck disable=SC2016 # the words are dpkg-query's
seen "in a scratch Debian, $release" "$(in_root dpkg-query --show --showformat='${Status}' pelzsukan)"

line=$("$rdp_host" demo 7 100)
[ "$(in_root rdp_host demo 7 100)" = "$line" ] || fail 'rdp_host demo 7 100 writes something else there'
seen 'there, rdp_host demo 7 100, as here' "$line"
in_root sh -c 'rdp_host script < /usr/share/doc/pelzsukan/examples/training_room.script | rdp_look 1' >"$work/there.ppm"
"$rdp_host" script <"$here/examples/training_room.script" | "$rdp_look" 1 >"$work/here.ppm"
cmp "$work/there.ppm" "$work/here.ppm"
seen 'there, the training room as viewer 1 is shown it, as here' "$(wc -c <"$work/there.ppm") bytes"
for page in rdp_host rdp_look rdp_view; do
    in_root man --no-justification "$page" >"$work/page"
    seen "there, man $page" "$(wc -l <"$work/page") lines, of $(sed -n "s/^ *\($page - .*\)/\1/p" "$work/page")"
    grep -q "^ *$page - " "$work/page" || fail "man $page shows another page"
done

cp "$here/examples/centre/$room.conf" "$root/etc/pelzsukan/$room.conf"
quietly in_root systemd-analyze verify --man=yes "$unit"
[ ! -s "$work/said" ] || fail "systemd-analyze verify says: $(cat "$work/said")"
seen "systemd-analyze verify $unit" nothing
quietly in_root systemd-analyze security --offline=yes --no-pager --threshold="$most_exposed" "$unit"
seen 'systemd-analyze security --offline=yes' "$(sed -n 's/^.*Overall exposure level for [^:]*: \([0-9.]*\) .*$/\1/p' "$work/said")"

# the room's user reads what is below
chmod 755 "$work" "$root"
trace=
if command -v strace >/dev/null; then
    : >"$work/trace"
    chmod 666 "$work/trace"
    trace="strace -f -qq -o $work/trace"
fi
serve_one
seen 'a room under the limits of its unit: a client joined, drew and left' "its line is $(cat "$work/lines")"
if [ -n "$trace" ]; then
    traced_calls >"$work/calls"
    refused=$(refused_calls)
    [ -z "$refused" ] || fail "the unit would refuse: $refused"
    ! grep -q 'PROT_WRITE|PROT_EXEC' "$work/trace" || fail 'it asks for memory that it may write and run'
    seen 'calls of the system that it made; those that its unit refuses' "$(wc -l <"$work/calls"); none"
fi

rm "$root/etc/pelzsukan/$room.conf"
quietly dpkg --root="$root" --purge pelzsukan
left=$(find "$root/usr" "$root/etc" -name '*rdp[-_]host*' -o -name '*rdp_look*' -o -name '*rdp_view*' -o -name 'pelzsukan*')
[ -z "$left" ] || fail "left behind: $left"
seen 'removed: what is left behind' nothing
