#!/usr/bin/env bash
# Tries what format 3 promises without a look at the program: random datagrams of strangers, forgers, peers, routers and foreign devices,
# under each policy of format 3 in examples/ and dist/ but those that learn routes, none of which has a rule that allows `enter` or
# `claim`. What comes of each is compared with a second reading of docs/spec/datagram.md:
#
# - a datagram of a station that doesn't belong to the port does nothing but its denial;
# - a message that claims a network that doesn't lie where it came from does nothing but its denial and, of a foreign device, a Result;
# - each datagram that is sent goes to a broadcast address, to a station that belongs to the port on which it is sent, to a peer, to the
#   router of a network, or back to whom the event is from.
#
#     bench/strangers.sh [--seed N] [--events N] [--config FILE] [PROGRAM]
#
# It wants python3 and the program built, as `./bacgw prove` leaves it, if none is given. The last line says how many agreed.
set -euo pipefail
exec python3 - "$(cd "$(dirname "$0")/.." && pwd)" "$@" <<'END'
import argparse, glob, ipaddress, os, random, re, subprocess, sys, tomllib

top, *words = sys.argv[1:]
parser = argparse.ArgumentParser(prog="strangers.sh")
parser.add_argument("--seed", type=int, default=1)
parser.add_argument("--events", type=int, default=20000)
parser.add_argument("--config")
parser.add_argument("program", nargs="?", default=os.path.join(top, "crates/bacgw/out/bacgw"))
options = parser.parse_args(words)
if not os.access(options.program, os.X_OK):
    sys.exit("build bacgw first: ./bacgw prove")
UNICAST, BROADCAST, FORWARDED, DISTRIBUTE, REGISTER, DELETE = 10, 11, 4, 9, 5, 8
GRACE = 30
STRANGERS = ["203.0.113.66", "8.8.8.8", "127.0.0.1", "255.255.255.255", "224.0.0.1"]
FAN, DOOR = "01400001", "01400002"
APDUS = ["1008", f"0005010C0C{FAN}1955", f"0005010C0C{DOOR}1955", f"0005010F0C{FAN}19553E91013F4908", f"0005010E0C{DOOR}1E09551F",
         f"0005010C0C{FAN}195500", "000501140900", "20010F", f"30010C0C{FAN}19553E91013F", "1000C4020004D22205C491032203E7", ""]
MESSAGES = ["00", "0003E7", "01012C", "0101F4", "12"]
draw = random.Random(options.seed)


class Site:
    """What a configuration has, and the addresses that may mean something to it."""

    def __init__(self, file):
        with open(file, "rb") as text:
            site = tomllib.load(text)
        self.file, self.ports, self.device = file, dict(enumerate(site["port"], 1)), site["device"]["network"]
        self.direct = {port["network"] for port in self.ports.values()} | {self.device}
        self.routes = {route["network"]: (route["port"], route["next"]) for route in site.get("route", [])}
        self.peers = {number: [peer["address"] for peer in port.get("peer", [])] for number, port in self.ports.items()}
        self.networks = [*self.direct, *self.routes, 301, 500]
        hosts = [*STRANGERS, *re.findall(r'"(\d+\.\d+\.\d+\.\d+)[:"]', open(file).read())]
        for port in self.ports.values():
            for subnet in map(ipaddress.ip_network, port["stations"]):
                hosts += [str(subnet[number % subnet.num_addresses]) for number in (1, 5, 6, 9, 66)]
        self.addresses = [f"{host}:{port}" for host in hosts for port in (47808, 47808, 47808, 50000)]
        members = {"@" + each["name"]: each["items"] for each in site.get("set", [])}
        named = [item for rule in site.get("rule", []) if "register" in rule.get("operation", []) for item in rule.get("sender", [])]
        named = [item for name in named for item in members.get(name, [name])]
        self.guests = [item if ":" in item else item + ":47808" for item in named] or self.addresses


def octets(address):
    host, port = address.split(":")
    return ipaddress.ip_address(host).packed + int(port).to_bytes(2, "big")


def station(site):
    return octets(draw.choice(site.addresses)) if draw.random() < 0.8 else bytes([draw.randrange(1, 9)])


def npdu(site):
    """A message of the network layer, and the network and station that it claims."""
    network = draw.random() < 0.15
    control, parts, claim = 0x80 if network else 0x04 if draw.random() < 0.5 else 0, b"", None
    to = draw.choice([None, 65535, *site.networks, *site.direct])
    if to is not None:
        goal = b"" if to == 65535 or draw.random() < 0.2 else b"\x01" if to == site.device else station(site)
        control, parts = control | 0x20, parts + to.to_bytes(2, "big") + bytes([len(goal)]) + goal
    if draw.random() < 0.4:
        claim = draw.choice([*site.networks, *site.routes, *site.routes, 500])
        source = station(site)
        control, parts = control | 0x08, parts + claim.to_bytes(2, "big") + bytes([len(source)]) + source
    if to is not None:
        parts += bytes([draw.choice([255, 255, 1, 0])])
    return bytes([1, control]) + parts + bytes.fromhex(draw.choice(MESSAGES if network else APDUS)), claim


def frame(function, content):
    return bytes([0x81, function]) + (len(content) + 4).to_bytes(2, "big") + content


class Reading:
    """What is registered on each port, and what an event may come to."""

    def __init__(self, site):
        self.site, self.now, self.ends = site, 0, {}

    def belongs(self, port, address):
        host = address.split(":")[0]
        here = self.site.ports[port]
        if self.ends.get((port, address), 0) > self.now:
            return True
        reserved = address == here["address"] or host == here["broadcast"].split(":")[0]
        return not reserved and any(ipaddress.ip_address(host) in ipaddress.ip_network(subnet) for subnet in here["stations"])

    def may_go(self, port, to, event):
        known = [self.site.ports[port]["broadcast"], event["sender"], event["link"], *self.site.peers[port]]
        known += [router for number, router in self.site.routes.values() if number == port]
        return to in known or self.belongs(port, to)

    def judge(self, event, lines):
        """What is wrong with the lines that are printed for an event, or nothing."""
        denied = [line.split(" ")[5] for line in lines if line.startswith("deny ")]
        sends = [line.split(" ")[1:] for line in lines if line.startswith("send ")]
        for port, to, _ in sends:
            if not self.may_go(int(port), to, event):
                return f"sent to {to} on port {port}"
        if event["function"] in (REGISTER, DELETE):
            if sends and sends[0][2] == "810000060000":
                self.ends[event["port"], event["of"]] = self.now + event["time"] + GRACE if event["function"] == REGISTER else 0
            return None
        own = self.site.ports[event["port"]]["address"]
        if event["sender"] == own:
            return "heard itself" if lines else None
        if event["function"] == FORWARDED and (event["sender"] not in self.site.peers[event["port"]] or event["link"] == own):
            return "heard who is no peer" if lines else None
        if event["claim"] in self.site.direct:
            return "heard a direct network" if lines else None
        if event["function"] == DISTRIBUTE and self.ends.get((event["port"], event["sender"]), 0) <= self.now:
            return None if not denied and [to for _, to, _ in sends] == [event["sender"]] else "heard who isn't registered"
        if event["function"] != DISTRIBUTE and not self.belongs(event["port"], event["link"]):
            return None if denied == ["enter"] and not sends else "heard a stranger"
        if event["claim"] is not None and self.site.routes.get(event["claim"]) != (event["port"], event["link"]):
            refused = [[str(event["port"]), event["sender"], "810000060060"]] if event["function"] == DISTRIBUTE else []
            return None if denied == ["claim"] and sends == refused else "heard a forged claim"
        return "a denial of whom needs none" if "enter" in denied or "claim" in denied else None


def event(site):
    port, sender = draw.choice(list(site.ports)), draw.choice(site.addresses)
    function = draw.choice([UNICAST, UNICAST, UNICAST, BROADCAST, BROADCAST, FORWARDED, DISTRIBUTE, REGISTER, DELETE])
    made = {"port": port, "function": function, "claim": None}
    if function in (REGISTER, DISTRIBUTE) and draw.random() < 0.7:
        port, sender = 1, draw.choice(site.guests)
    if function == FORWARDED and site.peers[1] and draw.random() < 0.8:
        port, sender = 1, draw.choice(site.peers[1])
    made["port"] = port
    made["sender"] = made["link"] = made["of"] = sender
    if function == REGISTER:
        made["time"] = draw.choice([0, 5, 60])
        content = made["time"].to_bytes(2, "big")
    elif function == DELETE:
        made["of"], made["time"] = draw.choice(site.addresses), 0
        content = octets(made["of"])
    else:
        content, made["claim"] = npdu(site)
        if function == FORWARDED:
            made["link"] = draw.choice(site.addresses)
            content = octets(made["link"]) + content
    made["text"] = f"{port} {sender} {frame(function, content).hex().upper()}"
    return made


def play(site):
    """Plays random events, and says how many agreed and how many didn't, and how often what was printed."""
    events = [event(site) if draw.random() < 0.98 else None for _ in range(options.events)]
    script = "".join((made["text"] if made else "tick") + "\n" for made in events)
    run = subprocess.run([options.program, "replay", "--config", site.file], input=script, capture_output=True, text=True, check=True)
    reading, agreed, failed, of_kind = Reading(site), 0, 0, {}
    printed = iter(run.stdout.splitlines())
    for made in events:
        lines = []
        while (line := next(printed)) != "end":
            lines.append(line)
            kind = line.split(" ")[5] if line.startswith("deny ") else "sends"
            of_kind[kind] = of_kind.get(kind, 0) + 1
        if made is None:
            reading.now += 1
            continue
        fault = reading.judge(made, lines)
        agreed, failed = agreed + (fault is None), failed + (fault is not None)
        if fault is not None and failed <= 10:
            print(f"not as expected: {made['text']}: {fault}: {lines}")
    counts = ", ".join(f"{count} {kind}" for kind, count in sorted(of_kind.items()))
    print(f"{os.path.relpath(site.file, top)}: {counts}")
    return agreed, failed


def policies():
    """The policies of format 3 that have rules, and learn no routes."""
    for folder in ("examples", "examples/attacks", "examples/site", "dist"):
        for file in sorted(glob.glob(os.path.join(top, folder, "*.toml"))):
            with open(file) as text:
                policy = text.read()
            if re.search(r"^format = 3$", policy, re.M) and "[[rule]]" in policy and '"learn"' not in policy:
                yield file


agreed = failed = 0
for file in [options.config] if options.config else policies():
    more, less = play(Site(file))
    agreed, failed = agreed + more, failed + less
print(f"{agreed} agreed, {failed} failed")
sys.exit(failed > 0)
END
