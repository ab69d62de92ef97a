#!/bin/sh
# Makes the service's user. It starts nothing: the settings are to be written first, and a relay that runs holds entries,
# which sources that do not ask for acknowledgements would lose.
set -e

[ "$1" = configure ] || exit 0
systemd-sysusers ${DPKG_ROOT:+--root="$DPKG_ROOT"} forward-relay.conf
[ ! -d /run/systemd/system ] || systemctl --system daemon-reload || true
# systemd takes the first unit of a name, so one in these folders would run in place of this package's
for folder in /etc/systemd/system /usr/local/lib/systemd/system; do
    [ ! -f "${DPKG_ROOT:-}$folder/forward_relay.service" ] || {
        echo "forward_relay: systemd uses $folder/forward_relay.service, and not this package's unit and program."
        echo "    Take it away as OPERATING.md says (\"A package over install.sh\"): a purge would remove its settings."
    } >&2
done
if [ -z "$2" ]; then
    echo "forward_relay: read /usr/share/doc/forward-relay/OPERATING.md, write /etc/forward_relay/relay.toml, and then:"
    echo "    systemctl enable --now forward_relay"
else
    echo "forward_relay: a relay that runs is still the old one, until: systemctl restart forward_relay"
fi
