#!/bin/sh
# Makes an image of a built relay for containers: forward_relay-VERSION.tar, in FOLDER, or here.
#
#     sh packaging/container.sh [FOLDER]
#
# Run at the top of the repository. RELAY names the program, else it is crates/forward_relay/out/forward_relay. VERSION
# is that of crates/fwd_monitor/src/version.rt, and its day that of its heading in CHANGELOG.md: the same program, C
# library and files make the same bytes. It is a root file system, as docker import and podman import take it. It has
#
#     /usr/sbin/forward_relay
#     what that is linked with: this machine's C library, and its loader
#     /usr/share/doc               the copyright of each, OPERATING.md, FORMATS.md and AVAILABILITY.md
#     /etc/passwd, /etc/group      a user relay of number 10000, whose /run is, for the control socket
#
# and no shell. It needs Debian's libc-bin, for ldd, dpkg and tar, downloads nothing, and takes a second. It prints how to
# import the image and to run it: settings are handed to it, by a folder or by what the platform has for secrets.
set -eu

[ $# -le 1 ] || {
    echo "usage: sh packaging/container.sh [FOLDER]" >&2
    exit 2
}
program=${RELAY:-crates/forward_relay/out/forward_relay}
[ -x "$program" ] || {
    echo "no program at $program: name one with RELAY, or build it (README, \"Install\")" >&2
    exit 1
}
version=$(sed -n 's/^pub const VERSION: &str = "\(.*\)";$/\1/p' crates/fwd_monitor/src/version.rt)
day=$(sed -n "s/^## \[$version\] - \(.*\)\$/\1/p" CHANGELOG.md)
[ -n "$day" ] || {
    echo "CHANGELOG.md has no day of version $version, or this is not the top of the repository" >&2
    exit 1
}
image=${1:-.}/forward_relay-$version.tar

folder=$(mktemp -d)
trap 'rm -rf "$folder"' EXIT
umask 022
tree=$folder/tree
doc=$tree/usr/share/doc
mkdir -p "$tree/usr/sbin" "$tree/etc" "$tree/run" "$tree/tmp" "$doc/forward_relay"
chmod 1777 "$tree/tmp"

cp "$program" "$tree/usr/sbin/forward_relay"
chmod 755 "$tree/usr/sbin/forward_relay"
# each library under the name by which the loader looks for it
ldd "$program" | sed -n 's/^[[:space:]]*\(.* => \)\{0,1\}\(\/[^ ]*\) (0x[0-9a-f]*)$/\2/p' | while read -r library; do
    mkdir -p "$tree${library%/*}"
    cp -L "$library" "$tree$library"
    package=$(dpkg -S "$library" | sed -n '1s/^\([^:]*\).*/\1/p')
    mkdir -p "$doc/$package"
    cp -L "/usr/share/doc/$package/copyright" "$doc/$package"
done
cp packaging/deb/copyright docs/OPERATING.md docs/FORMATS.md docs/AVAILABILITY.md "$doc/forward_relay"
echo "relay:x:10000:10000::/nonexistent:/usr/sbin/nologin" >"$tree/etc/passwd"
echo "relay:x:10000:" >"$tree/etc/group"

# all is root's but for /run
list=$folder/list
(cd "$tree" && find . -mindepth 1 ! -path ./run -printf '%P\n' | LC_ALL=C sort) >"$list"
how="--mtime=$day --no-recursion --numeric-owner --format=gnu"
# shellcheck disable=SC2086
tar $how --owner=0 --group=0 -C "$tree" -cf "$image" -T "$list"
# shellcheck disable=SC2086
tar $how --owner=10000 --group=10000 -C "$tree" -rf "$image" run

cat <<TEXT
$image
Next: import it, and run it with settings of yours in FOLDER, where listen is "0.0.0.0:24224" and control "/run/control".
    docker import --change 'USER relay' --change 'ENV FORWARD_RELAY_LOG=info' \\
        --change 'ENTRYPOINT ["/usr/sbin/forward_relay"]' \\
        --change 'CMD ["run", "/etc/forward_relay/relay.toml"]' $image forward_relay:$version
    docker run --init --name relay -p 24224:24224 -v FOLDER:/etc/forward_relay:ro forward_relay:$version
    docker exec relay forward_relay stop /etc/forward_relay/relay.toml
TEXT
