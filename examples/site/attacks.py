"""Sends the attacks of a table to a gateway in a network namespace, and looks at what leaves it (attacks.sh makes the namespaces).

    attacks.py PROGRAM FOLDER GATEWAY OTHER FIRST SECOND

After each event comes a read that the policy allows, to the address that the event was sent to. Once it is answered the gateway is done
with the event.
An attack of the last kind is a broadcast to both gateways: what leaves the first one within a second is counted.
"""

import ctypes
import os
import re
import socket
import subprocess
import sys
import tempfile
import time

OURS = 47808
ALL_PROTOCOLS, OUTGOING = 3, 4
PORTS = {"1": "10.1.0.2", "2": "10.2.0.2"}
BROADCASTS = {"1": "10.1.0.255", "2": "10.2.0.255"}
MANY = 100  # datagrams of a second, which no answer to one datagram is here
# Whether a firewall is in front of the gateway.
FIREWALL = bool(os.environ.get("FIREWALL"))
READERS = {"1": "10.1.0.5", "2": "10.2.0.9"}
INVOKE = 0xEE
READ_FAN = bytes.fromhex(f"810A0016012400640101FF0005{INVOKE:02X}0C0C014000011955")
WAIT = 5.0  # seconds for the answer to a read, or for a gateway to begin


def enter(namespace):
    """Makes the sockets and programs that come next those of this namespace."""
    with open(f"/run/netns/{namespace}") as file:
        if ctypes.CDLL(None, use_errno=True).setns(file.fileno(), 0):
            sys.exit(f"no namespace {namespace}: {os.strerror(ctypes.get_errno())}")


class Site:
    def __init__(self, program, gateway, other, first, second):
        self.program, self.gateway, self.other, self.first, self.second = program, gateway, other, first, second
        enter(gateway)
        self.ear = socket.socket(socket.AF_PACKET, socket.SOCK_DGRAM, socket.htons(ALL_PROTOCOLS))
        self.lines = {}

    def line(self, sender):
        """A socket at the address of a sender."""
        if sender not in self.lines:
            host, port = sender.split(":")
            enter(self.second if host.startswith("10.2.") else self.first)
            line = socket.socket(socket.AF_INET, socket.SOCK_DGRAM)
            line.setsockopt(socket.SOL_SOCKET, socket.SO_BROADCAST, 1)
            line.bind((host, int(port)))
            self.lines[sender] = line
            enter(self.gateway)
        return self.lines[sender]

    def say(self, to, sender, octets):
        self.line(sender).sendto(octets, (to, OURS))

    def leaving(self, seconds):
        """The datagrams that leave the gateway within so many seconds: where each goes, and its octets."""
        end = time.monotonic() + seconds
        while (left := end - time.monotonic()) > 0:
            self.ear.settimeout(left)
            try:
                packet, (_, _, kind, *_) = self.ear.recvfrom(2048)
            except socket.timeout:
                return
            start = (packet[0] & 15) * 4
            if kind == OUTGOING and packet[0] >> 4 == 4 and packet[9] == socket.IPPROTO_UDP and packet[start:start + 2] == OURS.to_bytes(2, "big"):
                to = socket.inet_ntoa(packet[16:20]), int.from_bytes(packet[start + 2:start + 4], "big")
                yield to, packet[start + 8:]

    def forget(self):
        """What left a gateway before isn't heard any more."""
        self.ear.setblocking(False)
        try:
            while True:
                self.ear.recvfrom(2048)
        except BlockingIOError:
            pass

    def answered(self, to, reader):
        """What leaves the gateway before it answers a read, as `ADDRESS OCTETS`."""
        self.say(to, f"{reader}:{OURS}", READ_FAN)
        sent = []
        for (host, to), octets in self.leaving(WAIT):
            if len(octets) > 11 and octets[10] >> 4 == 3 and octets[11] == INVOKE:
                return sent
            sent.append(f"{host}:{to} {octets.hex().upper()}")
        raise TimeoutError

    def serve(self, file, log, *words):
        """A gateway that begins anew, once its sockets are open; with these words too."""
        run = subprocess.Popen([self.program, "run", "--config", file, "--log", log, *words], stderr=subprocess.PIPE)
        end = time.monotonic() + WAIT
        while time.monotonic() < end and run.poll() is None:
            with open("/proc/self/net/udp") as table:
                if table.read().count(f":{OURS:04X} 00000000:0000") == 2 * len(PORTS):
                    self.forget()
                    return run
            time.sleep(0.01)
        run.kill()
        sys.exit(f"the gateway doesn't begin: {run.stderr.read().decode()}")

    def play(self, file, events, directed):
        """What leaves the gateway for the last of the events, and its log. An Original-Broadcast goes to the port's broadcast address if
        it is directed there, else to the port's own."""
        with tempfile.TemporaryDirectory() as work:
            log = os.path.join(work, "log")
            run = self.serve(file, log)
            try:
                sent = []
                for event in events:
                    port, sender, octets = event.split(" ")
                    to = BROADCASTS if directed and octets.startswith("810B") else PORTS
                    self.say(to[port], sender, bytes.fromhex(octets))
                    sent = self.answered(to[port], READERS[port])
            finally:
                run.kill()
                run.wait()
            with open(log) as lines:
                return sent, [re.sub(r"^(\d+) \d+ ", r"\1 . ", line) for line in lines.read().splitlines()]

    def count(self, first, second, event):
        """How many datagrams leave the first of two gateways within a second of a broadcast."""
        runs = []
        try:
            runs.append(self.serve(first, "/dev/null"))
            enter(self.other)
            runs.append(self.serve(second, "/dev/null"))
            enter(self.gateway)
            port, sender, octets = event.split(" ")
            self.say(BROADCASTS[port], sender, bytes.fromhex(octets))
            return sum(1 for _ in self.leaving(1.0))
        finally:
            enter(self.gateway)
            for run in runs:
                run.kill()
                run.wait()


def is_among(log, denied):
    """Whether each line of a log, without its number, is one of these denials."""
    words = [line.split(" ", 1)[1] for line in denied]
    return all(line.split(" ", 1)[1] in words for line in log)


def attacked(site, folder, row):
    """What isn't as expected of an attack on one gateway."""
    kind, _, script, wanted, shown = row
    events, wanted, directed = script.split(" | "), wanted.split(" ", 2)[2], kind == "2"
    denied = [re.sub(r"^deny (\d+) \d+ ", r"\1 . ", line) for line in shown.split(" | ") if line.startswith("deny ")]
    before, _ = site.play(os.path.join(folder, "format2.toml"), events, directed)
    after, log = site.play(os.path.join(folder, "format3.toml"), events, directed)
    if wanted not in before and not FIREWALL:
        yield f"fails under format 2: {before}"
    if wanted in after:
        yield f"succeeds under format 3: {after}"
    if not (is_among(log, denied) if FIREWALL else log == denied):
        yield f"the log under format 3: {log}"


def stormed(site, folder, row):
    """What isn't as expected of a broadcast to two gateways."""
    event = row[2]
    for form, storms in ((2, True), (3, False)):
        files = [os.path.join(folder, f"loop_{which}.format{form}.toml") for which in ("first", "second")]
        number = site.count(*files, event)
        if (number > MANY) != storms and not (storms and FIREWALL):
            yield f"{number} datagrams under format {form}"


def main():
    program, folder, *namespaces = sys.argv[1:]
    site = Site(program, *namespaces)
    agreed = failed = 0
    with open(os.path.join(folder, "attacks.tsv")) as table:
        rows = [line.rstrip("\n").split("\t") for line in table]
    for row in rows:
        faults = list((stormed if row[0] == "8" else attacked)(site, folder, row))
        if faults:
            failed += 1
            print(f"not as expected: {row[0]}: {row[1]}: {'; '.join(faults)}")
        else:
            agreed += 1
    print(f"{agreed} agreed, {failed} failed")
    sys.exit(failed > 0)


if __name__ == "__main__":
    main()
