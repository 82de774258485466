"""Plays a script of events to a gateway in a network namespace, without and with a policy on trial that denies all (trial.sh makes the
namespaces): what leaves the gateway and its log must be the same, octet for octet, and the trial's log must have each ask.

    trial.py PROGRAM CONFIG SCRIPT GATEWAY OTHER FIRST SECOND

After each event comes a read that the policy allows. Once it is answered the gateway is done with the event. The tick of a line of the
log isn't compared: it says when the datagram came.
"""

import os
import re
import sys
import tempfile

from attacks import BROADCASTS, PORTS, READERS, Site


def lines_of(file):
    with open(file) as lines:
        return [re.sub(r"^(\d+) \d+ ", r"\1 . ", line) for line in lines.read().splitlines()]


def played(site, config, events, log, *words):
    """What leaves the gateway for the events, and the lines of its log."""
    run = site.serve(config, log, *words)
    try:
        sent = []
        for port, sender, octets in events:
            to = BROADCASTS if octets.startswith("810B") else PORTS
            site.say(to[port], sender, bytes.fromhex(octets))
            sent += site.answered(to[port], READERS[port])
    finally:
        run.kill()
        run.wait()
    return sent, lines_of(log)


def main():
    program, config, script, *namespaces = sys.argv[1:]
    site = Site(program, *namespaces)
    with open(script) as lines:
        events = [line.split() for line in lines if len(line.split()) == 3]
    with tempfile.TemporaryDirectory() as work:
        rules = os.path.join(work, "trial.toml")
        with open(config) as text, open(rules, "w") as trial:
            trial.write(text.read().replace("allow = true", "allow = false"))
        without = played(site, config, events, os.path.join(work, "log"))
        denied = os.path.join(work, "trial.log")
        beside = played(site, config, events, os.path.join(work, "other"), "--trial", rules, "--trial-log", denied)
        number = len(lines_of(denied))
    print(f"{len(events)} events: {len(without[0])} datagrams left, {len(without[1])} lines of the log, {number} of the trial's")
    if without != beside or number <= len(without[1]):
        sys.exit(f"not as without a trial: {without} and {beside}")


main()
