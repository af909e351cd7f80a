# shellcheck shell=sh
# What the trials of the pages and the examples begin with. A script reads it by `.`, after it has set `top`, the repository's top.

# Whether a package of Debian is there, however it came.
is_there() {
    case $1 in
        chromium | curl | firefox-esr | mandoc | openssl | qrencode | redis-server) command -v "$1" ;;
        dpkg) command -v dpkg-deb ;;
        systemd) command -v systemd-analyze ;;
        nginx-light) command -v nginx ;;
        libnginx-mod-nchan) test -f /usr/lib/nginx/modules/ngx_nchan_module.so ;;
        iproute2) command -v ip ;;
        nodejs) command -v node ;;
        pychess) /usr/bin/python3 -c 'import pychess.Utils' ;;
        pgn-extract | stockfish) command -v "$1" || test -x "/usr/games/$1" ;;
        webkit2gtk-driver) command -v WebKitWebDriver ;;
        xvfb) command -v xvfb-run ;;
        python3-prometheus-client) /usr/bin/python3 -c 'import prometheus_client' ;;
        python3-websockets) /usr/bin/python3 -c 'import websockets' ;;
        zbar-tools) command -v zbarimg ;;
        *) false ;;
    esac > /dev/null 2>&1
}

# begin_trial PACKAGE..
# Says in one line all that is missing, packages of Debian and the program, and ends the script then. Gives it RELAY960, the program to
# try, which is the built one or the one that the environment names, and PYTHONPATH for the package relay_client.
begin_trial() {
    PATH="$PATH:/usr/sbin:/sbin"
    RELAY960="${RELAY960:-$top/crates/relay960/out/relay960}"
    missing=""
    for package; do
        is_there "$package" || missing="$missing $package"
    done
    missing="${missing:+ apt-get install$missing}"
    [ -x "$RELAY960" ] || missing="${missing:+$missing;} $RELAY960, which ./run.sh < crates/relay960/stdin builds"
    [ -z "$missing" ] || { echo "missing:$missing"; exit 1; }
    PYTHONPATH="$top/tools"
    PYTHONDONTWRITEBYTECODE=1
    export PATH RELAY960 PYTHONPATH PYTHONDONTWRITEBYTECODE
}
