"""Sends datagrams, some of them forged, to sockets where the gateway's would be, and looks which of them arrive (firewall.sh makes the
namespaces).

    firewall.py DIST GATEWAY FIRST SECOND
"""

import ctypes
import os
import re
import select
import socket
import subprocess
import sys

OURS = 47808
WAIT = 0.3  # seconds in which a datagram arrives that isn't dropped
TRIES = 30
ADDRESSES = ["10.1.0.2", "10.1.0.255", "10.2.0.2", "10.2.0.255"]

# By which subnet a datagram comes, from whom it says that it is, where it goes, and who sends it.
NEEDED = [
    ("first", "10.1.0.5", "10.1.0.2", "a host of the first subnet"),
    ("first", "10.1.0.5", "10.1.0.255", "its broadcast"),
    ("second", "10.2.0.9", "10.2.0.2", "a host of the second subnet"),
    ("second", "10.2.0.9", "10.2.0.255", "its broadcast"),
    ("first", "10.3.0.2", "10.1.0.2", "a peer beyond the first subnet"),
    ("first", "10.3.0.2", "10.1.0.255", "a peer's directed broadcast"),
    ("first", "10.9.0.7", "10.1.0.2", "a foreign device beyond the first subnet"),
    ("second", "198.51.100.9", "10.2.0.2", "a foreign device by the default router"),
]
FORGED = [
    ("second", "10.9.0.7", "10.2.0.2", "somebody of the second subnet as a foreign device of the first"),
    ("second", "10.9.0.7", "10.2.0.255", "the same by a broadcast"),
    ("second", "10.3.0.2", "10.2.0.2", "somebody of the second subnet as a peer of the first"),
    ("second", "10.1.0.5", "10.2.0.2", "somebody of the second subnet as a host of the first"),
    ("first", "10.2.0.9", "10.1.0.2", "somebody of the first subnet as a host of the second"),
    ("first", "198.51.100.9", "10.1.0.2", "somebody of the first subnet as a foreign device by the default router"),
    ("first", "10.2.0.2", "10.1.0.2", "somebody of the first subnet as the gateway itself"),
]
# A host that speaks to another port than its own: the firewall alone drops it.
CROSSING = ("first", "10.1.0.66", "10.2.0.2", "a host of the first subnet at the second port")
# It arrives where the set `elsewhere` has it, by its own interface alone.
ELSEWHERE = ("first", "10.9.0.8", "10.2.0.2", "a foreign device in the set `elsewhere`")
STILL_FORGED = ("second", "10.9.0.8", "10.2.0.2", "somebody of the second subnet as that foreign device")


def enter(namespace):
    """Makes the sockets and programs that come next those of this namespace."""
    with open(f"/run/netns/{namespace}") as file:
        if ctypes.CDLL(None, use_errno=True).setns(file.fileno(), 0):
            sys.exit(f"no namespace {namespace}: {os.strerror(ctypes.get_errno())}")


def packet(source, to, octets):
    """An IPv4 datagram of UDP from a source that needn't be the sender's; the kernel fills in length, number and checksum."""
    udp = OURS.to_bytes(2, "big") * 2 + (8 + len(octets)).to_bytes(2, "big") + bytes(2) + octets
    return bytes([0x45, 0, 0, 0, 0, 0, 0, 0, 64, socket.IPPROTO_UDP, 0, 0]) + socket.inet_aton(source) + socket.inet_aton(to) + udp


class Trial:
    def __init__(self, gateway, first, second):
        self.gateway = gateway
        self.senders, self.ears = {}, []
        for name, namespace in ("first", first), ("second", second):
            enter(namespace)
            sender = socket.socket(socket.AF_INET, socket.SOCK_RAW, socket.IPPROTO_RAW)
            sender.setsockopt(socket.SOL_SOCKET, socket.SO_BROADCAST, 1)
            self.senders[name] = sender
        enter(gateway)
        for address in ADDRESSES:
            ear = socket.socket(socket.AF_INET, socket.SOCK_DGRAM)
            ear.bind((address, OURS))
            self.ears.append(ear)
        self.sent = self.agreed = 0

    def arrives(self, by, source, to):
        self.sent += 1
        octets = b"\x81\x05\x00\x06" + self.sent.to_bytes(2, "big")
        self.senders[by].sendto(packet(source, to, octets), (to, OURS))
        while ready := select.select(self.ears, [], [], WAIT)[0]:
            heard, sender = ready[0].recvfrom(64)
            if heard == octets and sender[0] == source:
                return True
        return False

    def settle(self):
        """Waits until a host of each subnet is heard: an interface that is new takes a while."""
        for by, source, to, _ in NEEDED[0], NEEDED[2]:
            if not any(self.arrives(by, source, to) for _ in range(TRIES)):
                sys.exit(f"{source} isn't heard at {to}")
        self.sent = 0

    def look(self, wanted, cases, what):
        for by, source, to, words in cases:
            arrived = self.arrives(by, source, to)
            self.agreed += arrived == wanted
            if arrived != wanted:
                print(f"{what}: {words} ({source} to {to}) {'arrives' if arrived else 'is dropped'}")

    def set_filter(self, value):
        for name in os.listdir("/proc/sys/net/ipv4/conf"):
            subprocess.run(["sysctl", "-qw", f"net.ipv4.conf.{name}.rp_filter={value}"], check=True)


def main(dist, gateway, first, second):
    trial = Trial(gateway, first, second)
    trial.settle()
    # Without either what is forged arrives, or the trial would show nothing. The kernel itself drops what says that it comes from here.
    trial.look(True, NEEDED + FORGED[:-1] + [CROSSING], "without both")

    with open(f"{dist}/bacgw.sysctl") as file:
        [value] = set(re.findall(r"^-?net\.ipv4\.conf\.\S+\.rp_filter = (\d)$", file.read(), re.M))
    trial.set_filter(value)
    trial.look(True, NEEDED, f"rp_filter {value}")
    trial.look(False, FORGED, f"rp_filter {value}")
    trial.set_filter(0)

    with open(f"{dist}/bacgw.nft") as file:
        rules = file.read()
    subprocess.run(["nft", "-f", "-"], input=rules.encode(), check=True)
    trial.look(True, NEEDED, "bacgw.nft")
    trial.look(False, FORGED + [CROSSING, ELSEWHERE], "bacgw.nft")

    element = "elements = { 10.9.0.8 . 10.2.0.2 }"
    named = re.sub(r"#elements = .*", element, rules)
    assert element in named
    subprocess.run(["nft", "-f", "-"], input=named.encode(), check=True)
    trial.look(True, NEEDED + [ELSEWHERE], "bacgw.nft with elsewhere")
    trial.look(False, FORGED + [CROSSING, STILL_FORGED], "bacgw.nft with elsewhere")

    print(f"{trial.agreed} of {trial.sent} agreed")
    return trial.agreed != trial.sent


sys.exit(main(*sys.argv[1:]))
