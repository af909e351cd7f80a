#!/bin/sh
# Tries a hall beside the built program (or the one that RELAY960 names): a laptop and a phone in network namespaces of their own, with a
# cable between them, if that is allowed (as root), or else over two addresses of loopback. It takes some 20 seconds. Its last line
# says what came.
set -eu
cd "$(dirname "$0")"
top=$(cd ../.. && pwd)
# shellcheck disable=SC1091
. "$top/tools/trial.sh"
begin_trial nginx-light python3-websockets chromium qrencode zbar-tools iproute2
if [ "$(id -u)" -eq 0 ] && unshare --net true 2> /dev/null; then
    exec unshare --net /usr/bin/python3 test_hall.py namespaces
fi
exec /usr/bin/python3 test_hall.py loopback
