#!/bin/sh
# Makes pelzsukan_VERSION_amd64.deb of the three programs: these, without their symbols, their manual pages, the pages for whoever runs a host
# with those that they name, the examples and the unit of a room. VERSION is the date and the hash of the commit that is checked out; a `+changed` behind it says that files differ from it.
# The same programs and the same commit give the same package, byte for byte: every time in it is that of the commit (or SOURCE_DATE_EPOCH),
# owners and modes are fixed, and one thread packs it. It prints where the package is.
#
# It takes any three programs: `./run package` hands it those of this repository, and only where they are proved.
#
# usage: sh packaging/package.sh RDP_HOST RDP_LOOK RDP_VIEW FOLDER      (it needs git, and dpkg-dev of Debian)
set -eu
LC_ALL=C
export LC_ALL
umask 022
here=$(CDPATH='' cd -- "$(dirname -- "$0")/.." && pwd)
[ "$#" -eq 4 ] || { echo 'usage: sh packaging/package.sh RDP_HOST RDP_LOOK RDP_VIEW FOLDER' >&2; exit 2; }
rdp_host=$1
rdp_look=$2
rdp_view=$3
folder=$4

fail() {
    echo "package: $*" >&2
    exit 1
}

for tool in git dpkg-deb dpkg-shlibdeps strip; do
    command -v "$tool" >/dev/null || fail "no $tool here; Debian has it in git, dpkg, dpkg-dev or binutils"
done
for program in "$rdp_host" "$rdp_look" "$rdp_view"; do
    [ -x "$program" ] || fail "no $program"
done
work=$(mktemp -d)
trap 'rm -rf "$work"' EXIT
# The place in which dpkg-shlibdeps looks for a package's programs.
root=$work/debian/pelzsukan
doc=$root/usr/share/doc/pelzsukan

# The commit's date and hash, so that later commits have greater versions, and all are below a first release.
version() {
    date=$(git -C "$here" log -1 --format=%cd --date=format-local:%Y%m%d.%H%M%S)
    hash=$(git -C "$here" rev-parse --short=8 HEAD)
    changed=
    git -C "$here" diff --quiet HEAD -- || changed=+changed
    echo "0~$date.$hash$changed"
}

# Copies files into a folder of the package, for all to read.
put() {
    to=$root/$1
    shift
    mkdir -p "$to"
    install -m 644 -- "$@" "$to"
}

# A program of the package: what is proved but for the symbols, which nothing reads when it runs.
put_program() {
    install -m 755 -- "$1" "$root/usr/bin/$2"
    strip --strip-unneeded --remove-section=.comment --remove-section=.note -- "$root/usr/bin/$2"
}

# A text of the package, packed as Debian wants it: without a name or a time in it.
pack() {
    mkdir -p "$(dirname -- "$2")"
    gzip -9n <"$1" >"$2"
}

# What the programs want of the system, by the tables of its libraries.
depends() {
    echo 'Source: pelzsukan' >"$work/debian/control"
    (cd "$work" && dpkg-shlibdeps -O debian/pelzsukan/usr/bin/rdp_host debian/pelzsukan/usr/bin/rdp_look debian/pelzsukan/usr/bin/rdp_view) | sed -n 's/^shlibs:Depends=//p'
}

# The package's own record of changes: the commit that it is of.
changelog() {
    cat <<END
pelzsukan ($version) unstable; urgency=medium

$(git -C "$here" log -1 --format=%s | fold -s -w 74 | sed -e '1s/^/  * /' -e '2,$s/^/    /' -e 's/ *$//')

 -- Pelzsukan maintainers <maintainers@users.noreply.pelzsukan.example>  $(date -u -R -d "@$SOURCE_DATE_EPOCH")
END
}

TZ=UTC
export TZ
SOURCE_DATE_EPOCH=${SOURCE_DATE_EPOCH-$(git -C "$here" log -1 --format=%ct)}
export SOURCE_DATE_EPOCH
version=$(version)

mkdir -p "$root/DEBIAN" "$root/usr/bin" "$root/etc/pelzsukan"
put_program "$rdp_host" rdp_host
put_program "$rdp_look" rdp_look
put_program "$rdp_view" rdp_view
for page in rdp_host rdp_look rdp_view; do
    pack "$here/docs/$page.1" "$root/usr/share/man/man1/$page.1.gz"
done
put usr/lib/systemd/system "$here/packaging/rdp-host@.service"
put usr/share/doc/pelzsukan "$here/packaging/copyright"
for page in operating.md session.md errors.md protocol.md performance.md signs.png pointers.png; do
    put usr/share/doc/pelzsukan "$here/docs/$page"
done
changelog >"$work/changelog"
pack "$work/changelog" "$doc/changelog.gz"
put usr/share/doc/pelzsukan/examples "$here/examples/"*.script
put usr/share/doc/pelzsukan/examples/centre "$here/examples/centre/"*
put usr/share/doc/pelzsukan/examples/tunnel "$here/examples/tunnel/"*

depends=$(depends)
[ -n "$depends" ] || fail "dpkg-shlibdeps doesn't say what the programs want of the system"
size=$(du -k -s --apparent-size "$root" | cut -f 1)
sed -e "s/@VERSION@/$version/" -e "s/@SIZE@/$size/" -e "s/@DEPENDS@/$depends/" "$here/packaging/control" >"$root/DEBIAN/control"
(cd "$root" && find usr -type f -print0 | sort -z | xargs -0 md5sum) >"$root/DEBIAN/md5sums"
for script in postinst prerm postrm; do
    install -m 755 -- "$here/packaging/$script" "$root/DEBIAN/$script"
done
find "$root" -exec touch --no-dereference -d "@$SOURCE_DATE_EPOCH" {} +

mkdir -p "$folder"
package=$folder/pelzsukan_${version}_amd64.deb
dpkg-deb --root-owner-group --threads-max=1 -Zxz -z6 --build "$root" "$package" >&2
echo "$package"
