#!/bin/sh
# Tries the Debian package and what a site does with it, on loopback: the package is made, installed under a folder of the trial, and run
# from there; the units and the manual page are looked at; the smallest site, whose nginx has no module; a site's nginx with TLS that
# includes the two files for everything, with a certificate and a password made for the trial; spectators come to the watch port; a renewed
# certificate is taken over, and the relay is restarted in the middle of a game, with its journal. Before, it is killed in the middle of
# games. RELAY960 names another program than the built one. Its last line says what came. Words are the names of tests of the site:
# ./test.sh game watch, or ./test.sh smallest, or ./test.sh kills
set -eu
cd "$(dirname "$0")"
top=$(cd ../.. && pwd)
# shellcheck disable=SC1091
. "$top/tools/trial.sh"
begin_trial nginx-light libnginx-mod-nchan redis-server python3-websockets python3-prometheus-client chromium curl openssl systemd mandoc \
    dpkg qrencode
ports() { /usr/bin/python3 -m relay_client.ports "$@"; }
ports free 9110 9379 9443 9444 9600 9601 9960 9961 9980
run=$(mktemp -d)
chmod 755 "$run"
root=$run/root
pids=""
stop() {
    status=$?
    trap - EXIT INT TERM
    for name in relay960-feed relay960; do [ ! -f "$run/$name.pid" ] || pids="$pids $(cat "$run/$name.pid")"; done
    for pid in $pids; do kill "$pid" 2> /dev/null || true; done
    wait || true
    rm -rf "$run"
    exit "$status"
}
trap stop EXIT
trap 'exit 130' INT
trap 'exit 143' TERM

# The package, installed under $root. Only root may install; anybody may unpack.
package=$("$top/package.sh" "$run" | tail -n 1)
mkdir -p "$root/var/lib/dpkg/info" "$root/var/lib/dpkg/updates"
: > "$root/var/lib/dpkg/status"
if [ "$(id -u)" -eq 0 ]; then
    dpkg --root="$root" --force-depends --log=/dev/null -i "$package" > "$run/dpkg.log" 2>&1 || { cat "$run/dpkg.log"; exit 1; }
    [ "$(dpkg-query --admindir="$root/var/lib/dpkg" -W -f '${Status}' relay960)" = "install ok installed" ]
else
    dpkg-deb -x "$package" "$root"
fi
[ "$("$root/usr/bin/relay960" start 518)" = "rnbqkbnr/pppppppp/8/8/8/8/PPPPPPPP/RNBQKBNR w HAha - 0 1" ]
# Its files name each other by where they are on a site.
sed -i "s|/usr/share/relay960|$root&|g; s|/etc/relay960|$root&|g; s|/usr/lib/relay960|$root&|g; s|/usr/bin/relay960|$root&|g
s|/var/log/nginx/|$run/|g; s|/srv/relay960|$root&|g; s|/var/lib/relay960|$root&|g" \
    "$root"/etc/relay960/nginx/*.conf "$root"/usr/lib/systemd/system/*.service "$root/usr/share/relay960/site.conf"
echo "ok      package"
systemd-analyze verify --man=no "$root"/usr/lib/systemd/system/*.service
echo "ok      units"
for page in "$root"/usr/share/man/man1/*.1.gz; do
    mandoc -T lint -W style "$page"  # It unpacks the first of several only.
done
echo "ok      manual pages"

# A hall, from the package's own files, with an ordinary user's path.
echo "b1 518 White – Black" > "$run/round"
PATH=/usr/local/bin:/usr/bin:/bin PYTHONPATH='' "$root/usr/lib/relay960/hall.py" --address 127.0.0.1 --port 9960 "$run/round" \
    > "$run/hall.log" 2>&1 &
hall=$!
pids="$pids $hall"
ports wait 9960 || { cat "$run/hall.log"; exit 1; }
kill "$hall"
wait "$hall"
echo "ok      hall"

# A site with a certificate and a password.
site=$run/site
mkdir "$site"
cp trial.conf "$site/nginx.conf"
ln -s "$root/etc/relay960/nginx" "$site/relay960"
openssl req -x509 -newkey ec -pkeyopt ec_paramgen_curve:prime256v1 -nodes -days 1 -subj /CN=localhost \
    -addext subjectAltName=DNS:localhost,IP:127.0.0.1 -keyout "$site/key.pem" -out "$site/certificate.pem" 2> /dev/null
printf 'arbiter:%s\n' "$(openssl passwd -6 secret960)" > "$root/etc/relay960/operators"
if [ "$(id -u)" -eq 0 ]; then
    chown root:www-data "$root/etc/relay960/operators"
    chmod 640 "$root/etc/relay960/operators"
fi
# tests FOLDER: whether nginx takes the configuration.
tests() { nginx -p "$1" -c "$1/nginx.conf" -t -q 2> "$run/nginx.log" || { cat "$run/nginx.log"; exit 1; }; }
tests "$site"
echo "ok      nginx"

# The smallest site, with the names and ports of the trial, first with operators too, and then as it is, with the files of PGN.
smallest=$run/smallest
mkdir "$smallest"
cp trial-smallest.conf "$smallest/nginx.conf"
# own PLACE PART FILE: the file for the trial, with the part's include behind that for watching, in http or in server.
own() {
    sed "/\\[::\\]/d; s|listen 80;|listen 127.0.0.1:9980;|; s|listen 443 ssl;|listen 127.0.0.1:9444 ssl;|; s|boards.example;|localhost;|
s|/etc/letsencrypt/live/boards.example/fullchain.pem|$site/certificate.pem|
s|/etc/letsencrypt/live/boards.example/privkey.pem|$site/key.pem|
s|relay960-watch-$1.conf;|&\n    include $root/etc/relay960/nginx/relay960-$2-$1.conf;|" "$3"
}
own http operators "$root/usr/share/relay960/site.conf" > "$run/half"
own server operators "$run/half" > "$smallest/site.conf"
grep -q operators-http "$smallest/site.conf" && grep -q operators-server "$smallest/site.conf"
tests "$smallest"
own server pgn "$root/usr/share/relay960/site.conf" > "$smallest/site.conf"
tests "$smallest"
nginx -p "$smallest" -c "$smallest/nginx.conf" > "$run/smallest.log" 2>&1 &
pids="$pids $!"
echo "ok      smallest nginx"
redis-server "$root/etc/relay960/redis.conf" --dir "$run" > "$run/redis.log" 2>&1 &
pids="$pids $!"
ports wait 9379
nginx -p "$site" -c "$site/nginx.conf" > "$run/nginx.log" 2>&1 &
pids="$pids $!"

# What a site and the hook for renewed certificates call: systemctl, here on the processes of the trial. They are started by their units'
# own words.
mkdir "$run/bin"
cat > "$run/bin/systemctl" <<END
#!/bin/sh
set -eu
begin() {
    eval "PYTHONPATH= \$(sed -n 's/^ExecStart=//p' "$root/usr/lib/systemd/system/\$1.service") >> '$run/\$1.log' 2>&1 &"
    echo \$! > "$run/\$1.pid"
}
end() {
    [ ! -f "$run/\$1.pid" ] || kill "\$(cat "$run/\$1.pid")"
    rm -f "$run/\$1.pid"
}
end_relay() {
    end relay960
    until /usr/bin/python3 -m relay_client.ports free 9600 9601 > /dev/null; do sleep 0.1; done
}
case "\$*" in
    "reload nginx") kill -HUP "\$(cat "$site/nginx.pid")" ;;
    "restart relay960-feed" | "try-restart relay960-feed") end relay960-feed; begin relay960-feed ;;
    "restart relay960") end_relay; begin relay960 ;;
    "stop relay960") end_relay ;;
    "reload relay960-feed") kill -HUP "\$(cat "$run/relay960-feed.pid")" ;;
    *) echo "no such call: systemctl \$*" >&2; exit 1 ;;
esac
END
chmod +x "$run/bin/systemctl"
echo hall > "$root/etc/relay960/feed"
mkdir -p "$root/var/lib/relay960"  # The unit's StateDirectory.
"$run/bin/systemctl" restart relay960
"$run/bin/systemctl" restart relay960-feed
export SITE_FEED="$root/etc/relay960/feed" SITE_JOURNAL="$root/var/lib/relay960/journal"
export SITE_HOOK="$root/usr/lib/relay960/certificate-renewed" SITE_FOLDER="$site" SITE_LOGS="$run"
if ! { ports wait 9444 9600 9601 9980 && /usr/bin/python3 test_smallest.py "$site/certificate.pem" "$root"; }; then
    tail -n 5 "$run"/*.log
    echo "failed"
    exit 1
fi
[ "$*" != smallest ] || { echo "passed: package, units, manual pages, the smallest site"; exit 0; }
"$run/bin/systemctl" stop relay960
/usr/bin/python3 test_kills.py "$root" "$run" || { tail -n 5 "$run/kills.log"; echo "failed"; exit 1; }
[ "$*" != kills ] || { echo "passed: package, units, manual pages, the smallest site, a relay that is killed"; exit 0; }
rm "$SITE_JOURNAL"
"$run/bin/systemctl" restart relay960  # What comes now begins without boards.
if ports wait 9110 9443 9600 9601 && PATH="$run/bin:$PATH" /usr/bin/python3 test_site.py "$site/certificate.pem" "$@"; then
    echo "passed: package, units, manual pages, the smallest site, a killed relay, nginx with TLS, the watch port, a renewed certificate," \
        "a restarted relay"
else
    tail -n 5 "$run"/*.log
    echo "failed"
    exit 1
fi
