"""Joins two gateways at the same two subnets, sends one datagram, and says whether what they send each other ends.

    loop.py PROGRAM FIRST.toml SECOND.toml EVENT [LIMIT]

Each gateway is played by `replay`, anew for each round, with all that it has heard before. A datagram to a gateway's address, or to its
port's broadcast address, is heard by that gateway in the next round. It prints the number of datagrams that the two sent, or `goes on`
if there are more than LIMIT, 3,000 unless another is given.
"""

import subprocess
import sys
import tomllib


class Gateway:
    def __init__(self, program, file):
        self.words = [program, "replay", "--config", file]
        with open(file, "rb") as text:
            self.ports = tomllib.load(text)["port"]
        self.heard = []
        self.shown = 0

    def port_of(self, to):
        """The number of the port that hears what is sent to this address."""
        for number, port in enumerate(self.ports, 1):
            if to in (port["address"], port["broadcast"]):
                return number
        return None

    def take(self, events):
        """What the gateway sends for these events: from which address, where to, and the octets."""
        self.heard += events
        text = "".join(event + "\n" for event in self.heard)
        run = subprocess.run(self.words, input=text, capture_output=True, text=True, check=True)
        lines = run.stdout.splitlines()
        new, self.shown = lines[self.shown:], len(lines)
        sends = [line.split(" ") for line in new if line.startswith("send ")]
        return [(self.ports[int(port) - 1]["address"], to, octets) for _, port, to, octets in sends]


def main():
    program, first, second, event, *rest = sys.argv[1:]
    limit = int(rest[0]) if rest else 3000
    gateways = [Gateway(program, first), Gateway(program, second)]
    # The datagram is a broadcast of a host: both hear it.
    waiting = [[event], [event]]
    sent = 0
    while any(waiting) and sent <= limit:
        sends = [gateway.take(events) if events else [] for gateway, events in zip(gateways, waiting)]
        waiting = [[], []]
        for speaker in (0, 1):
            sent += len(sends[speaker])
            for source, to, octets in sends[speaker]:
                port = gateways[1 - speaker].port_of(to)
                if port is not None:
                    waiting[1 - speaker].append(f"{port} {source} {octets}")
    print("goes on" if sent > limit else f"{sent} datagrams")


main()
