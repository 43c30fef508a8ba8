#!/bin/sh
# Compares what a Wayland client is told of keys over libxkc-xkbcommon.so and over libxkbcommon: sway without a display, wev as
# its client, and wtype that types, each with the library preloaded and without.
#   bench/wayland.sh [FOLDER]      FOLDER has the built library; else it is built
# Lines of wev that differ are printed, and the last line counts. Needs Debian's sway, wtype and wev, and xkb-data. As root it
# runs them as another user, since sway refuses to run as root.
set -eu
top=$(cd "$(dirname "$0")/.." && pwd)
for needed in sway wtype wev; do
    command -v "$needed" > /dev/null || { echo "$needed is not installed" && exit 0; }
done
work=$(mktemp -d)
trap 'rm -rf "$work"' EXIT
if [ $# -gt 0 ]; then cp "$1/libxkc-xkbcommon.so" "$work"; else "$top/c/build.sh" "$work/lib" > /dev/null && cp "$work/lib/libxkc-xkbcommon.so" "$work"; fi
library=$work/libxkc-xkbcommon.so
chmod -R go+rX "$work"
printf 'xwayland disable\ninput * xkb_layout "us,de"\n' > "$work/config"
cat > "$work/session" <<'END'
#!/bin/sh
# session LIBRARY OUT: what wev is told, with the library preloaded, if one is named.
set -eu
library=$1
out=$2
cd "$(dirname "$0")/$3"
mkdir run
chmod 700 run
export HOME="$PWD" XDG_RUNTIME_DIR="$PWD/run" WLR_BACKENDS=headless WLR_LIBINPUT_NO_DEVICES=1 WLR_RENDERER=pixman
LD_PRELOAD=$library sway -c ../config > sway.log 2>&1 &
sway=$!
for _ in 1 2 3 4 5 6 7 8 9 10; do
    display=$(find run -name 'wayland-*' ! -name '*.lock' | head -n 1)
    [ -z "$display" ] || break
    sleep 1
done
export WAYLAND_DISPLAY="${display#run/}"
LD_PRELOAD=$library stdbuf -oL wev -f wl_keyboard > "$out" 2> wev.log &
wev=$!
sleep 4
# Whether it is the library that answers.
if [ "$library" ]; then grep -q libxkc-xkbcommon "/proc/$sway/maps" && grep -q libxkc-xkbcommon "/proc/$wev/maps"; fi
type_keys() { LD_PRELOAD=$library wtype -s 400 "$@" -s 400; }
type_keys -d 10 'Hello, Größe: ф € 😀'
type_keys -M ctrl c -m ctrl
type_keys -M shift -k Tab -m shift -k Return -k XF86AudioPlay
type_keys -M altgr -k dead_acute -m altgr -M capslock a -m capslock
sleep 1
kill "$wev" "$sway"
END
chmod +x "$work/session"

# told LIBRARY NAME: the lines of keys, without times and numbers of objects.
told() {
    mkdir "$work/$2"
    [ "$(id -u)" -ne 0 ] || { chmod 777 "$work/$2" && set -- "$1" "$2" setpriv --reuid 65534 --regid 65534 --clear-groups; }
    as=$2 of=$1
    shift 2
    "$@" "$work/session" "$of" "$work/$as/out" "$as" || { cat "$work/$as/sway.log" && exit 1; }
    sed -E 's/^\[ *[0-9]+: */[/; s/(serial|time|size|fd): [0-9]+/\1/g; s/surface: [^;]*//' "$work/$as/out" | grep -vE '^\[wl_keyboard\] (enter|leave)' > "$work/$as.told"
}
told '' real
told "$library" ours
count=$(wc -l < "$work/real.told")
if diff "$work/real.told" "$work/ours.told"; then echo "$count lines, all the same"; else echo "$count lines, some differ" && exit 1; fi
