#!/bin/sh
# Takes away the service's user, which owns no file, where the package is purged.
set -e

[ ! -d /run/systemd/system ] || systemctl --system daemon-reload || true
if [ "$1" = purge ] && getent passwd _forward_relay >/dev/null; then
    userdel _forward_relay || true
fi
