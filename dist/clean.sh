#!/usr/bin/env bash
# Installs the Debian package in a clean root, lets the gateway serve and answer there, does what docs/ten-minutes.md says there, and
# removes it again.
#
#     sudo dist/clean.sh [PACKAGE.deb]       # what dist/release.sh left in dist/out by default
#     sudo ROOT=FOLDER dist/clean.sh ..      # in a copy of this root, as debootstrap makes one, and not in one that it makes
#
# It wants root, debootstrap (or ROOT), ip and python3. The gateway runs in a chroot, in a network namespace of its own with the addresses
# of dist/site.toml, and without systemd: of the unit it tries nothing. Everything that it made is gone when it ends.
set -euo pipefail

here=$(cd "$(dirname "$0")" && pwd)
package=${1:-$(echo "$here"/out/bacgw_*_amd64.deb)}
[ "$(id -u)" = 0 ] || { echo "this wants root: it makes a root and a network namespace" >&2; exit 1; }
[ -f "$package" ] || { echo "no package: $package" >&2; exit 1; }
space=bacgw-clean-$$
work=$(mktemp -d)
chmod 755 "$work"
root=$work/root
gateway=
clean_up() {
    [ -z "$gateway" ] || kill "$gateway" 2> /dev/null || true
    ip netns del "$space" 2> /dev/null || true
    rm -rf --one-file-system "$work"
}
trap clean_up EXIT

if [ -n "${ROOT:-}" ]; then
    cp -a --reflink=auto "$ROOT" "$root"
else
    debootstrap --variant=minbase bookworm "$root" > "$work/debootstrap" 2>&1 || { tail -3 "$work/debootstrap" >&2; exit 1; }
fi
inside() { chroot "$root" "$@"; }

# files: all of the root but what dpkg keeps of its own work
files() { (cd "$root" && find . -path ./var/lib/dpkg -prune -o -path ./var/log -prune -o -path ./root -prune -o -print | sort); }

files > "$work/before"
cp "$package" "$root/root/bacgw.deb"
inside dpkg --install /root/bacgw.deb > "$work/told" 2>&1 || { cat "$work/told" >&2; exit 1; }
[ "$(inside dpkg-query -W -f '${db:Status-Status}' bacgw)" = installed ]
echo "installed: $(inside bacgw --version); $(inside bacgwctl --version)"
inside bacgw check --config /etc/bacgw/site.toml
inside bacgwctl explain --config /etc/bacgw/site.toml > /dev/null

ip netns add "$space"
ip -n "$space" link add one type veth peer name other
ip -n "$space" addr add 192.0.2.2/24 broadcast + dev one
ip -n "$space" addr add 192.0.2.9/24 dev one
ip -n "$space" addr add 198.51.100.2/24 broadcast + dev one
ip -n "$space" link set one up
ip -n "$space" link set other up
ip -n "$space" link set lo up
# As an unprivileged user, as the unit does.
ip netns exec "$space" chroot --userspec=65534:65534 "$root" /usr/bin/bacgw run --config /etc/bacgw/site.toml --verbose \
    > "$work/log" 2> "$work/told" &
gateway=$!
for _ in $(seq 50); do
    grep -q '^bacgw: serving' "$work/told" && break
    sleep 0.1
done
grep -q '^bacgw: serving' "$work/told" || { cat "$work/told" >&2; exit 1; }
echo "started: port 1 at 192.0.2.2:47808, port 2 at 198.51.100.2:47808"
ip netns exec "$space" python3 - <<'PYTHON'
import socket

line = socket.socket(socket.AF_INET, socket.SOCK_DGRAM)
line.bind(("192.0.2.9", 47808))
line.settimeout(2)
line.sendto(bytes.fromhex("810A0016012400640101FF0005070C0C014000011955"), ("192.0.2.2", 47808))
answer, sender = line.recvfrom(1508)
assert answer.hex().upper() == "810A001801080064010130070C0C0140000119553E91013F", answer.hex()
print(f"a read is answered by {sender[0]}")
PYTHON
kill "$gateway"
wait "$gateway" || true
gateway=
echo "stopped"
ROOT=$root "$here/../examples/ten-minutes.sh" > "$work/minutes" || { cat "$work/minutes" >&2; exit 1; }
echo "a policy in ten minutes: $(tail -1 "$work/minutes")"

echo '# mine' >> "$root/etc/bacgw/site.toml"
inside dpkg --install /root/bacgw.deb > "$work/told" 2>&1
[ "$(tail -1 "$root/etc/bacgw/site.toml")" = '# mine' ]
echo "installed again: the configuration stays as it is"
inside dpkg --remove bacgw > "$work/told" 2>&1
[ ! -e "$root/usr/bin/bacgw" ] && [ ! -e "$root/usr/bin/bacgwctl" ] && [ -e "$root/etc/bacgw/site.toml" ]
echo "removed: the configuration stays"
inside dpkg --purge bacgw > "$work/told" 2>&1
files > "$work/after"
diff "$work/before" "$work/after"
echo "purged: no file is left"
