#!/usr/bin/env bash
# Plays the script of each site over UDP: makes its subnets on this machine, as network namespaces, with `bacgw run` between them, sends
# each line from its address, and compares what every address hears, and what the log has, with the site's .out.
#
#     sudo examples/sites/sites.sh [SITE]...
#
# It wants root, for the namespaces, and ip, python3 and the program built, as `./bacgw prove` leaves it; BACGW names another. Everything
# that it made is gone when it ends. The last line says how many agreed.
set -euo pipefail
here=$(cd "$(dirname "$0")" && pwd)
program=$(realpath -m "${BACGW:-$here/../../crates/bacgw/out/bacgw}")

[ "$(id -u)" = 0 ] || { echo "this wants root: it makes network namespaces" >&2; exit 1; }
[ -x "$program" ] || { echo "build bacgw first: ./bacgw prove" >&2; exit 1; }
for tool in ip sysctl python3; do
    command -v "$tool" > /dev/null || { echo "this wants $tool" >&2; exit 1; }
done
exec python3 - "$here" "$program" "$@" <<'PYTHON'
import ctypes, os, select, signal, socket, subprocess, sys, tempfile, time, tomllib

here, program = sys.argv[1:3]
sites = sys.argv[3:] or sorted(name[:-5] for name in os.listdir(here) if name.endswith(".toml"))
libc = ctypes.CDLL(None, use_errno=True)
agreed = failed = 0


def ip(*words):
    subprocess.run(("ip", *words), check=True)


def whole(address):
    host, port = address.split(":")
    return host, int(port)


class Site:
    """The subnets of a site, each a namespace with its hosts, and the gateway between them."""

    def __init__(self, name, work):
        self.file = os.path.join(here, name + ".toml")
        self.ports = [(whole(port["address"]), whole(port["broadcast"])) for port in tomllib.load(open(self.file, "rb"))["port"]]
        self.names = [f"site-{os.getpid()}-{number}" for number in range(len(self.ports) + 1)]
        self.sockets, self.gateway, self.log = {}, None, os.path.join(work, name + ".log")

    def make(self, hosts):
        for name in self.names:
            ip("netns", "add", name)
            subprocess.run(("ip", "netns", "exec", name, "sysctl", "-qw", "net.ipv4.conf.all.rp_filter=0", "net.ipv4.conf.default.rp_filter=0"), check=True)
            ip("-n", name, "link", "set", "lo", "up")
        for number, ((own, _), (broadcast, _)) in enumerate(self.ports, 1):
            subnet, front = self.names[number], broadcast.rsplit(".", 1)[0]
            ip("link", "add", f"port{number}", "netns", self.names[0], "type", "veth", "peer", "name", "wire", "netns", subnet)
            ip("-n", self.names[0], "addr", "add", own + "/24", "broadcast", "+", "dev", f"port{number}")
            ip("-n", self.names[0], "link", "set", f"port{number}", "up")
            ip("-n", subnet, "link", "set", "wire", "up")
            ip("-n", subnet, "addr", "add", front + ".99/24", "broadcast", "+", "dev", "wire")
            for host in sorted(host for port, (host, _) in hosts if port == number and host != broadcast):
                near = host.rsplit(".", 1)[0] == front
                ip("-n", subnet, "addr", "add", host + ("/24" if near else "/32"), "dev", "wire")
                if not near:
                    ip("-n", self.names[0], "route", "add", host + "/32", "dev", f"port{number}")
        for port, address in sorted(hosts):
            self.sockets[port, address] = self.open(port, address)

    def open(self, port, address):
        with open("/proc/self/ns/net") as home, open("/run/netns/" + self.names[port]) as other:
            if libc.setns(other.fileno(), 0) != 0:
                sys.exit("setns failed")
            line = socket.socket(socket.AF_INET, socket.SOCK_DGRAM)
            line.setsockopt(socket.SOL_SOCKET, socket.SO_BROADCAST, 1)
            line.bind(address)
            libc.setns(home.fileno(), 0)
        return line

    def start(self):
        words = ("ip", "netns", "exec", self.names[0], program, "run", "--config", self.file, "--log", self.log, "--verbose")
        self.gateway = subprocess.Popen(words, stderr=subprocess.PIPE, text=True)
        for line in self.gateway.stderr:
            if "serving" in line:
                return
        sys.exit("the gateway doesn't serve")

    def send(self, port, sender, octets):
        own, broadcast = self.ports[port - 1]
        self.sockets[port, sender].sendto(octets, broadcast if octets[1] == 0x0B else own)

    def heard(self, count):
        """What comes until so many datagrams came, and a little after that."""
        found, end = [], time.monotonic() + 3
        while (left := end - time.monotonic()) > 0:
            ready = select.select(list(self.sockets.values()), [], [], 0.3 if len(found) >= count else left)[0]
            if not ready and len(found) >= count:
                break
            for (port, (host, udp)), line in self.sockets.items():
                if line in ready:
                    octets, sender = line.recvfrom(2048)
                    if sender == self.ports[port - 1][0]:
                        found.append(f"send {port} {host}:{udp} {octets.hex().upper()}")
        return found

    def end(self):
        if self.gateway:
            self.gateway.send_signal(signal.SIGTERM)
            self.gateway.wait()
        for line in self.sockets.values():
            line.close()
        for name in self.names:
            subprocess.run(("ip", "netns", "del", name), stderr=subprocess.DEVNULL)


def same(what, found, wanted):
    global agreed, failed
    if found == wanted:
        agreed += 1
    else:
        failed += 1
        print(f"not as expected: {what}\n  wanted: {wanted}\n  found: {found}")


def untimed(line):
    words = line.split()
    return words[:1] + words[2:]


def play(name, work):
    lines = [line.split() for line in open(os.path.join(here, name + ".script")) if line[0] in "123456789"]
    events = open(os.path.join(here, name + ".out")).read().split("end\n")[:-1]
    site = Site(name, work)
    hosts = {(int(port), whole(sender)) for port, sender, _ in lines}
    hosts |= {(int(port), whole(to)) for event in events for kind, port, to, *_ in map(str.split, event.splitlines()) if kind == "send"}
    hosts |= {(number, broadcast) for number, (_, broadcast) in enumerate(site.ports, 1)}
    try:
        site.make(hosts)
        site.start()
        for number, ((port, sender, octets), event) in enumerate(zip(lines, events, strict=True), 1):
            wanted = [line for line in event.splitlines() if line.startswith("send ")]
            site.send(int(port), whole(sender), bytes.fromhex(octets))
            same(f"{name}, line {number}, from {sender}", sorted(site.heard(len(wanted))), sorted(wanted))
        denied = [untimed(line[5:]) for event in events for line in event.splitlines() if line.startswith("deny ")]
        logged = [untimed(line) for line in open(site.log) if not line.startswith("#")]
        same(f"{name}, the log", logged, denied)
    finally:
        site.end()
    print(f"{name}: {len(lines)} datagrams of {len({sender for _, sender, _ in lines})} clients, {len(denied)} asks denied")


with tempfile.TemporaryDirectory() as work:
    for name in sites:
        play(name, work)
print(f"{agreed} agreed, {failed} did not")
sys.exit(1 if failed else 0)
PYTHON
