"""A host of BACnet/IP for neighbours.sh, by the standard library alone.

    neighbours.py ear INTERFACE                    prints each BACnet/IP datagram on the wire: its destination, and its octets in hexadecimal digits
    neighbours.py say ADDRESS BROADCAST NPDU       sends an NPDU as an Original-Broadcast from this address
    neighbours.py pass ADDRESS ROUTER NPDU         sends it as an Original-Unicast
    neighbours.py distribute ADDRESS MANAGER NPDU  sends it as a Distribute-Broadcast-To-Network
    neighbours.py register ADDRESS MANAGER SECONDS registers as a foreign device, and prints the answer
"""

import socket
import sys

PORT = 47808
FUNCTIONS = {"say": 0x0B, "pass": 0x0A, "distribute": 0x09}
EVERY_PROTOCOL, IPV4, UDP = 3, 0x0800, 17  # what is sent is seen only by who asks for every protocol


def frame(function, content):
    """A BVLL message of this function (Annex J.2)."""
    return bytes([0x81, function]) + (len(content) + 4).to_bytes(2, "big") + content


def open_line(address):
    """A socket at this address that may send broadcasts, and waits two seconds at most."""
    line = socket.socket(socket.AF_INET, socket.SOCK_DGRAM)
    line.setsockopt(socket.SOL_SOCKET, socket.SO_BROADCAST, 1)
    line.bind((address, PORT))
    line.settimeout(2)
    return line


def hear(interface):
    """Prints what is on the wire, until the process is ended."""
    wire = socket.socket(socket.AF_PACKET, socket.SOCK_DGRAM, socket.htons(EVERY_PROTOCOL))
    wire.bind((interface, EVERY_PROTOCOL))
    print("ready", flush=True)
    while True:
        packet, origin = wire.recvfrom(2048)
        if origin[1] != IPV4:
            continue
        header = (packet[0] & 0x0F) * 4
        length = int.from_bytes(packet[2:4], "big")
        if packet[9] == UDP and int.from_bytes(packet[header + 2 : header + 4], "big") == PORT:
            print(socket.inet_ntoa(packet[16:20]), packet[header + 8 : length].hex().upper(), flush=True)


def register(line, manager, seconds):
    """Registers as a foreign device (Annex J.5.2)."""
    line.sendto(frame(0x05, seconds.to_bytes(2, "big")), (manager, PORT))
    try:
        while (message := line.recv(1508))[1] != 0:
            pass
        print("granted" if message == frame(0x00, b"\x00\x00") else "refused")
    except socket.timeout:
        print("no answer")


def main():
    role, rest = sys.argv[1], sys.argv[2:]
    if role == "ear":
        hear(*rest)
        return
    address, other, what = rest
    with open_line(address) as line:
        if role == "register":
            register(line, other, int(what))
        else:
            line.sendto(frame(FUNCTIONS[role], bytes.fromhex(what)), (other, PORT))


main()
