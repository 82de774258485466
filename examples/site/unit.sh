#!/usr/bin/env bash
# Runs the gateway's unit under systemd, in a container over a copy of this machine's files that vanishes with it: installs it, starts it,
# reads and writes a point, reloads good and faulty rules by `systemctl reload`, kills it, and restarts it. Each line says what is so; the
# status is 1 if anything isn't.
#
#     sudo examples/site/unit.sh [BACGW BACGWCTL]
#
# It wants root, systemd-nspawn, nsenter, ip, python3 and both programs built, as `./bacgw prove` leaves them, if none are given.
set -euo pipefail

here=$(cd "$(dirname "$0")" && pwd)
program=$(realpath -m "${1:-${BACGW:-$here/../../crates/bacgw/out/bacgw}}")
tool=$(realpath -m "${2:-${BACGWCTL:-$here/../../crates/bacgwctl/out/bacgwctl}}")
[ "$(id -u)" = 0 ] || { echo "this wants root: it makes a container" >&2; exit 1; }
for file in "$program" "$tool"; do
    [ -x "$file" ] || { echo "build ${file##*/} first: ./bacgw prove" >&2; exit 1; }
done
for wanted in systemd-nspawn nsenter ip python3; do
    command -v "$wanted" > /dev/null || { echo "this wants $wanted" >&2; exit 1; }
done

work=$(mktemp -d)
container=
wrong=0
clean_up() {
    [ -z "$container" ] || { kill "$container" 2> /dev/null && wait "$container"; } || true
    umount "$work/root" 2> /dev/null || true
    umount "$work" 2> /dev/null || true
    rmdir "$work" 2> /dev/null || true
}
trap clean_up EXIT
mount -t tmpfs tmpfs "$work"
mkdir "$work/up" "$work/work" "$work/root"
mount -t overlay overlay -o "lowerdir=/,upperdir=$work/up,workdir=$work/work" "$work/root"
root=$work/root
rm -f "$root/etc/machine-id" "$root"/etc/systemd/system/*.wants/*
# The network is made below, by hand.
ln -sf /dev/null "$root/etc/systemd/system/systemd-networkd-wait-online.service"

# What is installed is what a release installs.
mkdir -p "$work/release"
cp -r "$here/../../dist/." "$work/release/"
mkdir -p "$work/release/bin"
cp "$program" "$work/release/bin/bacgw"
cp "$tool" "$work/release/bin/bacgwctl"
cp "$here"/../../man/*.1 "$work/release/"
"$work/release/install.sh" --root "$root" > /dev/null
cp "$here/site.toml" "$root/etc/bacgw/site.toml"
cat >> "$root/etc/bacgw/site.toml" <<'TEXT'

[[rule]]
name = "panel-writes"
allow = true
operation = ["write"]
source_network = [1]
sender = ["10.1.0.5:47808"]
object_type = ["binary-value"]
instance = [1]
property = ["present-value"]
priority = [8]
TEXT
printf '[Service]\nIPAddressAllow=10.1.0.0/24 10.2.0.0/24\n' > "$root/etc/systemd/system/bacgw.service.d/site.conf"

systemd-nspawn --register=no --keep-unit --quiet --directory="$root" --private-network --console=pipe --boot systemd.unit=basic.target \
    > "$work/boot" 2>&1 < /dev/null &
container=$!

# inside WORD..: does this in the container
inside() { nsenter --target "$init" --mount --uts --ipc --net --pid --root --wd=/ -- "$@"; }

init=
for _ in $(seq 100); do
    init=$(pgrep -P "$container" | head -1) || true
    [ -z "$init" ] || ! inside systemctl is-active --quiet basic.target 2> /dev/null || break
    sleep 0.2
done
for number in 1 2; do
    inside ip link add "port$number" type bridge
    inside ip addr add "10.$number.0.2/24" broadcast + dev "port$number"
    inside ip link set "port$number" up
done
inside ip addr add 10.1.0.5/24 dev port1

# so WHAT WORD..: says that this is so, or isn't
so() {
    if "${@:2}"; then echo "so: $1"; else echo "not so: $1"; wrong=1; fi
}

cat > "$root/panel.py" <<'PYTHON'
import socket, sys

WRITE = "810A001C012400640101FF0005090F0C0140000119553E91013F4908"
READ = "810A0016012400640101FF0005070C0C014000011955"
with socket.socket(socket.AF_INET, socket.SOCK_DGRAM) as line:
    line.bind(("10.1.0.5", 47808))
    line.settimeout(2)
    line.sendto(bytes.fromhex({"read": READ, "write": WRITE}[sys.argv[1]]), ("10.1.0.2", 47808))
    try:
        answer = line.recv(1508)
    except socket.timeout:
        sys.exit("no answer")
print({2: "done", 3: "active" if answer[-2] else "inactive", 5: "denied"}.get(answer[10] >> 4, answer.hex()))
PYTHON

# The interpreter itself: a wrapper that chooses one may not run in the container.
python=$(python3 -c 'import sys; print(sys.executable)')

# panel WORD ANSWER: whether the panel's read or write is answered so
panel() { [ "$(inside "$python" /panel.py "$1" 2> /dev/null)" = "$2" ]; }

# said TEXT: whether the unit's journal has it
said() {
    inside journalctl --namespace=bacgw --flush > /dev/null 2>&1 || true
    for _ in $(seq 20); do
        inside journalctl --namespace=bacgw -u bacgw -o cat --no-pager | grep -qF "$1" && return
        sleep 0.2
    done
    return 1
}

active() { inside systemctl is-active --quiet bacgw; }
fails() { ! "$@" > /dev/null 2>&1; }

# begun: waits until the gateway has its sockets
begun() {
    for _ in $(seq 50); do
        [ "$(inside cat /proc/net/udp | grep -c ':BAC0 ')" != 4 ] || return 0
        sleep 0.2
    done
    return 1
}

so "systemd starts the unit" inside systemctl start bacgw
so "it has its sockets" begun
so "it runs as a user of its own" [ "$(inside ps -o user= -C bacgw | tr -d ' ')" != root ]
so "the panel's write is done" panel write done
so "and read" panel read active
so "its journal says what is served" said 'serving'
so "a reload of the same rules is done" inside systemctl reload bacgw
inside sed -i '0,/^\[\[rule\]\]$/s//[[rule]]\nname = "no-fan"\nallow = false\noperation = ["read"]\ninstance = [1]\n\n[[rule]]/' /etc/bacgw/site.toml
so "a reload with a rule in front is done" inside systemctl reload bacgw
so "and the panel is denied" panel read denied
so "the journal has the reload" said '(1 new'
so "and the denial" said 'rule=no-fan'
inside sed -i 's/^network = 100$/network = 0/' /etc/bacgw/site.toml
so "a reload of a faulty file fails" fails inside systemctl reload bacgw
so "and the unit goes on" active
so "by the rules that it had" panel read denied
inside sed -i 's/^network = 0$/network = 100/; s/"10.2.0.2:47808"/"10.2.0.3:47808"/' /etc/bacgw/site.toml
so "a reload of other ports fails" fails inside systemctl reload bacgw
so "and the unit goes on then, too" panel read denied
inside sed -i 's/"10.2.0.3:47808"/"10.2.0.2:47808"/; /^name = "no-fan"$/,/^instance/{s/^instance.*/instance = [9]/}' /etc/bacgw/site.toml
so "a reload that lifts the rule is done" inside systemctl reload bacgw
so "and the panel reads again" panel read active
inside systemctl kill --signal=KILL bacgw
so "killed, it is started again" sleep 7
so "and has its sockets" begun
so "and the value that was written" panel read active
so "systemd stops it" inside systemctl stop bacgw
so "and it is off" fails active
so "it was asked to, and kept its state" said 'stopped'
so "it is started once more" inside systemctl start bacgw
so "and has its sockets" begun
so "and the value that was written" panel read active
so "killed by hand, it has nobody to ask" inside systemctl kill --signal=KILL bacgw
so "and is started again" sleep 7
so "and has its sockets" begun
exit "$wrong"
