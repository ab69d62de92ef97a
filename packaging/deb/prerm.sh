#!/bin/sh
# Ends the service where the package goes away. Where it is upgraded the relay runs on.
set -e

[ "$1" = remove ] || exit 0
systemctl --no-reload disable forward_relay.service || true
[ ! -d /run/systemd/system ] || systemctl stop forward_relay.service || true
