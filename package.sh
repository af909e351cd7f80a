#!/bin/sh
# Makes a Debian package: ./package.sh, or ./package.sh FOLDER for another folder than this one. It has the program that was built (or the
# one that RELAY960 names), its manual pages and units, the pages, the feed, the recorder, enter.py, the exporter, and the includes for
# nginx. If the program is not built, ./run.sh proves and builds it first. The package has the version that the program reports. The last
# line is the package's name. It runs no script when it is installed: docs/DEPLOYMENT.md has the commands that begin the services.
set -eu
umask 022
folder=$(cd "${1:-.}" && pwd)
cd "$(dirname "$0")"
program="${RELAY960:-crates/relay960/out/relay960}"
command -v dpkg-deb > /dev/null || { echo "missing: apt-get install dpkg" >&2; exit 1; }
[ -x "$program" ] || [ -n "${RELAY960:-}" ] || ./run.sh --version >&2
[ -x "$program" ] || { echo "missing: $program" >&2; exit 1; }
program=$(realpath "$program")
version=$("$program" --version) || { echo "$program does not tell its version" >&2; exit 1; }
version=${version#relay960 }
root=$(mktemp -d)
trap 'rm -rf "$root"' EXIT
chmod 755 "$root"

# put MODE FOLDER FILE..: into that folder of the package.
put() {
    mode=$1 goal=$root$2
    shift 2
    mkdir -p "$goal"
    install -m "$mode" "$@" "$goal"
}

put 755 /usr/bin "$program"
[ "$(basename "$program")" = relay960 ] || mv "$root/usr/bin/$(basename "$program")" "$root/usr/bin/relay960"
put 644 /usr/share/man/man1 docs/relay960.1 docs/relay960-enter.1
gzip -9n "$root"/usr/share/man/man1/*.1
# The documents stand as in the repository, with what they link: but for one page, whose own links lead to all the rest.
doc=/usr/share/doc/relay960
put 644 $doc/docs docs/ARBITERS.md docs/DEPLOYMENT.md docs/HEADLINE.md docs/LIVE.md docs/PAGES.md docs/PROTOCOL.md docs/PROVED.md \
    docs/SCRIPTS.md docs/TERMS.md docs/TRUST.md
sed -i 's/\[\([^]]*\)\](ARCHITECTURE\.md[^)]*)/\1/' "$root$doc/docs/PROVED.md"
put 644 $doc/docs/pictures docs/pictures/*.png
put 644 $doc/examples/clients examples/clients/follow.py examples/clients/follow.js
for app in hall many_spectators metrics recorder; do put 644 "$doc/apps/$app" "apps/$app/README.md"; done
mkdir "$root$doc/tools"
ln -s ../../../../lib/relay960/relay_client "$root$doc/tools"
put 644 /usr/share/relay960 apps/deployment/site.conf
put 644 /usr/share/relay960/pages web/*.html web/*.js web/*.css
put 755 /usr/lib/relay960 apps/many_spectators/feed.py apps/recorder/record.py apps/hall/hall.py \
    apps/pgn_in/enter.py apps/metrics/metrics.py apps/metrics/healthy apps/deployment/certificate-renewed apps/deployment/until-term
put 644 /usr/lib/relay960 apps/hall/hall.conf apps/metrics/figures.py
put 644 /usr/lib/relay960/relay_client tools/relay_client/__init__.py tools/relay_client/frames.py tools/relay_client/line.py \
    tools/relay_client/keys.py tools/relay_client/men.py tools/relay_client/names.py tools/relay_client/outcomes.py \
    tools/relay_client/ports.py tools/relay_client/successors.py
put 644 /usr/lib/relay960 apps/many_spectators/channel.py apps/many_spectators/every.py \
    apps/many_spectators/follower.py apps/many_spectators/list_channel.py
put 644 /usr/lib/relay960 apps/recorder/pgn.py apps/recorder/san.py apps/recorder/rules.py apps/recorder/position.py \
    apps/recorder/starts.py
put 644 /usr/lib/relay960 apps/pgn_in/desk.py apps/pgn_in/ending.py apps/pgn_in/entry.py apps/pgn_in/games.py \
    apps/pgn_in/kept.py apps/pgn_in/link.py apps/pgn_in/naming.py apps/pgn_in/plan.py apps/pgn_in/round.py \
    apps/pgn_in/seat.py apps/pgn_in/setup.py apps/pgn_in/source.py apps/pgn_in/wanted.py
put 644 /usr/lib/systemd/system apps/deployment/*.service
put 644 /etc/relay960 apps/deployment/enter apps/deployment/feed apps/many_spectators/redis.conf
put 644 /etc/relay960/nginx apps/deployment/relay960-*.conf
put 644 /etc/relay960/nginx apps/many_spectators/channels.conf apps/many_spectators/publish.conf \
    apps/many_spectators/subscribe.conf

mkdir "$root/DEBIAN"
(cd "$root" && find etc -type f | sort | sed 's|^|/|') > "$root/DEBIAN/conffiles"
cat > "$root/DEBIAN/control" <<END
Package: relay960
Version: $version
Architecture: $(dpkg --print-architecture)
Maintainer: ${DEBFULLNAME:-Sirvandu} <${DEBEMAIL:-root@localhost}>
Section: games
Priority: optional
Installed-Size: $(du -sk --exclude=DEBIAN "$root" | cut -f1)
Recommends: python3, python3-websockets, nginx-light | nginx, qrencode, curl
Suggests: libnginx-mod-nchan, redis-server, apache2-utils, python3-prometheus-client
Description: relay for live Chess960 games
 Serves boards of Chess960 over WebSocket: operators submit moves, which are
 checked by the rules, and spectators get them in order. With it come pages
 for browsers, a feed for channels of nginx and nchan, a recorder, a program
 that enters the games of electronic boards, an exporter of figures for
 Prometheus, and units of systemd.
END
package=$folder/relay960_${version}_$(dpkg --print-architecture).deb
# The same files give the same package.
SOURCE_DATE_EPOCH=${SOURCE_DATE_EPOCH:-$(git log -1 --format=%ct 2> /dev/null || date +%s)}
export SOURCE_DATE_EPOCH
dpkg-deb --root-owner-group -Zxz --build "$root" "$package" > /dev/null
echo "$package"
