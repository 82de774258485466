#!/usr/bin/env bash
# Cuts each datagram that is worked in this repository to every shorter length, as it is and with the length of its BVLL put right,
# and sees that the gateway answers as another one does.
#
#     YARDSTICK=PROGRAM bench/cuts.sh      # another gateway's `replay --config FILE`
#     CONFIG=FILE bench/cuts.sh            # those of the cases under this policy too
#
# Without a yardstick it sees that each is taken, and that nothing is answered to a datagram whose length field isn't its length.
#
# It wants python3 and the built program: ./bacgw prove.
set -euo pipefail

top=$(cd "$(dirname "$0")/.." && pwd)
program=${BACGW:-$top/crates/bacgw/out/bacgw}
[ -x "$program" ] || { echo "build bacgw first: ./bacgw prove" >&2; exit 1; }

exec python3 - "$top" "$program" "${YARDSTICK:-}" "${CONFIG:-}" <<'PYTHON'
import re
import subprocess
import sys
import tempfile
from pathlib import Path

top, program, yardstick, policy = Path(sys.argv[1]), sys.argv[2], sys.argv[3], sys.argv[4]
LINE = re.compile(r"^([12]) (\d+\.\d+\.\d+\.\d+:\d+) ([0-9A-Fa-f]+)$")
SHORTEST_HEADER = 4


def worked():
    """The scripts of the cases and of the examples, each with its configuration as a text, where it has one of its own."""
    for path in sorted(top.glob("examples/*.script")):
        config = path.with_suffix(".toml")
        yield config.read_text() if config.exists() else None, path.read_text().splitlines()
    of_cases = [line for path in sorted(top.glob("crates/gw_*_vectors/stdin")) for line in path.read_text().splitlines()]
    yield None, of_cases
    if policy:
        yield Path(policy).read_text(), of_cases


def with_length(octets):
    return octets[:2] + len(octets).to_bytes(2, "big") + octets[4:]


def cuts(octets):
    for count in range(len(octets)):
        yield octets[:count]
        if count >= SHORTEST_HEADER:
            yield with_length(octets[:count])


def play(gateway, config, lines):
    """The block of each event."""
    words = [gateway, "replay"]
    if config is not None:
        Path(folder, "config.toml").write_text(config)
        words += ["--config", f"{folder}/config.toml"]
    ran = subprocess.run(words, input="".join(line + "\n" for line in lines), capture_output=True, text=True)
    if ran.returncode:
        sys.exit(f"{gateway} ended with status {ran.returncode}: {ran.stderr}")
    return ran.stdout.split("end\n")[:-1]


counts = {"datagrams": 0, "cuts": 0, "answered": 0}
faults = []
with tempfile.TemporaryDirectory() as folder:
    for config, lines in worked():
        seen = set()
        for line in lines:
            match = LINE.match(line)
            if not match or len(match[3]) % 2 or match[3].upper() in seen:
                continue
            seen.add(match[3].upper())
            octets = bytes.fromhex(match[3])
            front = f"{match[1]} {match[2]}"
            events = [f"{front} {cut.hex().upper() or '-'}" for cut in cuts(octets)]
            counts["datagrams"] += 1
            counts["cuts"] += len(events)
            blocks = play(program, config, events)
            if len(blocks) != len(events):
                faults.append(f"{line}: {len(blocks)} blocks for {len(events)} events")
            for event, block in zip(events, blocks):
                cut = bytes.fromhex(event.split()[2].replace("-", ""))
                counts["answered"] += block != ""
                if block and (len(cut) < SHORTEST_HEADER or int.from_bytes(cut[2:4], "big") != len(cut)):
                    faults.append(f"{event}: answered, though its length is wrong")
            if yardstick and play(yardstick, config, events) != blocks:
                faults.append(f"{line}: the answers to its cuts differ")
print(*faults[:20], sep="\n", end="\n" if faults else "")
print(f"{counts['cuts']} cuts of {counts['datagrams']} datagrams; {counts['answered']} of them answered or denied; {len(faults)} faults")
sys.exit(bool(faults))
PYTHON
