#!/bin/sh
# Puts a built relay in place on a Linux system with systemd, or takes it away again.
#
#     sh packaging/install.sh [--prefix P] [--uninstall]
#
# Run at the top of the repository. RELAY names the program, else it is crates/forward_relay/out/forward_relay (README,
# "Install"). It needs nothing but POSIX tools, and takes no time. P is /usr/local where it is not given. It puts
#
#     P/sbin/forward_relay
#     P/bin/forward_relay-watch        needs python3 (3.9 or later) and nothing else
#     P/bin/forward_relay-sizing       the same
#     P/bin/forward_relay-next_hop     a server to try a relay with; needs Debian's python3-msgpack
#     P/lib/forward_relay/             what these are
#     P/share/man/man8/forward_relay.8
#     P/share/doc/forward_relay/       OPERATING.md, FORMATS.md, AVAILABILITY.md, CHANGELOG.md, examples, and the list of
#                                      folders that were made
#     P/lib/systemd/system/forward_relay.service
#     P/etc/forward_relay/relay.toml   the example settings with the unit's control socket, readable by root alone, and
#                                      never over an existing file;
#                                      where P is /usr or /usr/local it is /etc/forward_relay/relay.toml
#
# Where DESTDIR is set all of it goes below that folder, as for a package, and the paths in the texts stay those above.
#
# It neither starts nor stops a service, makes no user (the unit has systemd make one), and says what to do next.
# --uninstall takes away these files, but settings that are not the example any more, and the folders that were made and
# are empty then. Stop the service first: systemctl disable --now forward_relay.
set -eu

prefix=/usr/local action=install
while [ $# -gt 0 ]; do
    case $1 in
    --prefix)
        prefix=${2:?a folder}
        shift 2
        ;;
    --uninstall)
        action=uninstall
        shift
        ;;
    *)
        echo "usage: sh packaging/install.sh [--prefix P] [--uninstall]" >&2
        exit 2
        ;;
    esac
done

case $prefix in
/usr | /usr/local) etc=/etc/forward_relay ;;
/*) etc=$prefix/etc/forward_relay ;;
*)
    echo "the prefix has to begin at /: $prefix" >&2
    exit 2
    ;;
esac
program=${RELAY:-crates/forward_relay/out/forward_relay}
bin=$prefix/bin sbin=$prefix/sbin lib=$prefix/lib/forward_relay man=$prefix/share/man/man8
doc=$prefix/share/doc/forward_relay unit=$prefix/lib/systemd/system
root=${DESTDIR:-}
folders=$root$doc/folders
tools='watch sizing next_hop'
documents='docs/OPERATING.md docs/FORMATS.md docs/AVAILABILITY.md CHANGELOG.md'
version=$(sed -n 's/^pub const VERSION: &str = "\(.*\)";$/\1/p' crates/fwd_monitor/src/version.rt)

# makes a folder and those above it, and notes each that was not there
make() {
    [ -d "${1:-/}" ] || {
        make "${1%/*}"
        mkdir "$1"
        made="$1
$made"
    }
}

# installs a file with a mode: FILE MODE TARGET, which is replaced in one step, also where it is a program that runs
put() {
    target=$root$3
    make "${target%/*}"
    cp "$1" "$target.new"
    chmod "$2" "$target.new"
    mv -f "$target.new" "$target"
    echo "installed $target"
}

# takes a file away, where it is there
take() {
    [ ! -e "$root$1" ] || {
        rm "$root$1"
        echo "removed $root$1"
    }
}

# installs a text with the paths and the version written into it: FILE MODE TARGET
put_filled() {
    filled=$(mktemp)
    sed "s|@SBIN@|$sbin|; s|@ETC@|$etc|; s|@LIB@|$lib|; s|@VERSION@|$version|" "$1" >"$filled"
    put "$filled" "$2" "$3"
    rm "$filled"
}

# writes the settings that are installed: the example's, and the control socket in the folder that the unit makes
write_settings() {
    sed 's|^# control = |control = |' examples/relay.toml
}

install_all() {
    [ -x "$program" ] || {
        cat >&2 <<TEXT
no program at $program: name one with RELAY, or build it, which takes about an hour on four cores:
    (cd crates/forward_relay && rt run -- check ../../examples/relay.toml)
TEXT
        exit 1
    }
    [ -n "$version" ] || {
        echo "no version in crates/fwd_monitor/src/version.rt: run this at the top of the repository" >&2
        exit 1
    }
    made=
    put "$program" 755 "$sbin/forward_relay"
    for tool in $tools; do
        put_filled "packaging/forward_relay-$tool" 755 "$bin/forward_relay-$tool"
        put "tools/$tool.py" 644 "$lib/$tool.py"
    done
    put tools/page.py 644 "$lib/page.py"
    put_filled packaging/forward_relay.8 644 "$man/forward_relay.8"
    for file in $documents; do
        put "$file" 644 "$doc/${file##*/}"
    done
    for file in examples/*; do
        put "$file" 644 "$doc/$file"
        take "$doc/${file##*/}" # where versions before had it
    done
    put_filled packaging/forward_relay.service 644 "$unit/forward_relay.service"
    if [ -e "$root$etc/relay.toml" ]; then
        echo "kept $root$etc/relay.toml"
    else
        filled=$(mktemp)
        write_settings >"$filled"
        put "$filled" 600 "$etc/relay.toml"
        rm "$filled"
    fi
    printf %s "$made" | cat - "$folders" 2>/dev/null >"$folders.new" || :
    mv -f "$folders.new" "$folders"
    [ -z "$root" ] || return 0
    # systemd looks for units in these two alone, and is told of any other by its path
    case $prefix in
    /usr | /usr/local) name=forward_relay ;;
    *) name=$unit/forward_relay.service ;;
    esac
    cat <<TEXT
Next: write the settings, check them, and start it.
    $sbin/forward_relay check $etc/relay.toml
    systemctl daemon-reload
    systemctl enable --now $name
TEXT
}

uninstall_all() {
    take "$sbin/forward_relay"
    for tool in $tools metrics; do # the last was of versions before
        take "$bin/forward_relay-$tool"
        take "$lib/$tool.py"
    done
    take "$lib/page.py"
    take "$man/forward_relay.8"
    for file in $documents examples/*; do
        take "$doc/${file##*/}"
    done
    for file in examples/*; do
        take "$doc/$file"
    done
    take "$unit/forward_relay.service"
    if [ ! -e "$root$etc/relay.toml" ] || write_settings | cmp -s - "$root$etc/relay.toml"; then
        take "$etc/relay.toml"
    else
        echo "kept $root$etc/relay.toml, which is not the example"
    fi
    [ -e "$folders" ] || return 0
    made=$(cat "$folders")
    rm "$folders"
    echo "$made" | while read -r folder; do
        [ ! -d "$folder" ] || rmdir "$folder" 2>/dev/null || echo "kept $folder, which has other files"
    done
}

"${action}_all"
