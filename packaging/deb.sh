#!/bin/sh
# Makes a package for Debian 12 of a built relay: forward-relay_VERSION_amd64.deb, in FOLDER, or here.
#
#     sh packaging/deb.sh [FOLDER]
#
# Run at the top of the repository. RELAY names the program, else it is crates/forward_relay/out/forward_relay. VERSION
# is that of crates/fwd_monitor/src/version.rt, and its day that of its heading in CHANGELOG.md: the same program and
# files make the same bytes. DEBFULLNAME and DEBEMAIL say who maintains it. It needs Debian's binutils, for strip, and
# takes some seconds. What it has is what packaging/install.sh puts in place, where Debian has such files, and the
# scripts of packaging/deb.
set -eu

[ $# -le 1 ] || {
    echo "usage: sh packaging/deb.sh [FOLDER]" >&2
    exit 2
}
name=forward-relay
version=$(sed -n 's/^pub const VERSION: &str = "\(.*\)";$/\1/p' crates/fwd_monitor/src/version.rt)
day=$(sed -n "s/^## \[$version\] - \(.*\)\$/\1/p" CHANGELOG.md)
[ -n "$day" ] || {
    echo "CHANGELOG.md has no day of version $version, or this is not the top of the repository" >&2
    exit 1
}
SOURCE_DATE_EPOCH=$(date -u -d "$day" +%s)
export SOURCE_DATE_EPOCH
maintainer="${DEBFULLNAME:-forward_relay maintainers} <${DEBEMAIL:-maintainers@forward-relay.example}>"
package=${1:-.}/${name}_${version}_amd64.deb

folder=$(mktemp -d)
trap 'rm -rf "$folder"' EXIT
umask 022
tree=$folder/tree
doc=$tree/usr/share/doc/$name
mkdir -p "$tree/DEBIAN" "$doc" "$tree/lib" "$tree/usr/lib/sysusers.d"

DESTDIR=$tree sh packaging/install.sh --prefix /usr >"$folder/installed"
program=$tree/usr/sbin/forward_relay
strip --strip-unneeded "$program"
mv "$tree/usr/lib/systemd" "$tree/lib/systemd"
rm "$tree/usr/share/doc/forward_relay/folders"
mv "$tree"/usr/share/doc/forward_relay/* "$doc"
rmdir "$tree/usr/share/doc/forward_relay"
cp packaging/deb/copyright "$doc/copyright"
cp packaging/deb/sysusers.conf "$tree/usr/lib/sysusers.d/$name.conf"
cat >"$doc/changelog" <<TEXT
$name ($version) stable; urgency=medium

  * See CHANGELOG.md.

 -- $maintainer  $(date -u -R -d "@$SOURCE_DATE_EPOCH")
TEXT
gzip -9n "$doc/changelog" "$tree/usr/share/man/man8/forward_relay.8"

for script in postinst prerm postrm; do
    cp "packaging/deb/$script.sh" "$tree/DEBIAN/$script"
    chmod 755 "$tree/DEBIAN/$script"
done
echo /etc/forward_relay/relay.toml >"$tree/DEBIAN/conffiles"
# the least C library is the one whose symbols it has
libc=$(grep -ao 'GLIBC_2\.[0-9]*' "$program" | sort -uV | tail -n 1)
cat >"$tree/DEBIAN/control" <<TEXT
Package: $name
Version: $version
Architecture: amd64
Maintainer: $maintainer
Installed-Size: $(du -sk --exclude=DEBIAN "$tree" | cut -f 1)
Depends: libc6 (>= ${libc#GLIBC_}), systemd | systemd-standalone-sysusers
Recommends: python3 (>= 3.9)
Suggests: haproxy, prometheus, python3-msgpack, stunnel4
Section: net
Priority: optional
Description: log relay that acknowledges what was delivered
 forward_relay takes log events of the Forward Protocol (Fluentd, Fluent Bit,
 language loggers) from many sources, sends them on to servers, and
 acknowledges a source's request only once the next hop has acknowledged all
 of it. That no acknowledgement comes too early is proved.
 .
 It keeps nothing on disk, and runs as a service without privileges.
TEXT
(cd "$tree" && find . -type f ! -path './DEBIAN/*' -printf '%P\n' | LC_ALL=C sort | xargs md5sum >DEBIAN/md5sums)
dpkg-deb --build --root-owner-group -Zxz -z1 "$tree" "$package" >"$folder/built"
echo "$package"
