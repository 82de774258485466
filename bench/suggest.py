#!/usr/bin/env python3
"""A day of a site: two workstations poll points, write some, ask what is there, register, and reach the other network.

    bench/suggest.py script > day.script     # for `bacgw replay --config examples/day.toml`
    bench/suggest.py many 12 > many.script   # twelve workstations, each with as many asks

Every line is a datagram of the script's form. Under examples/day.toml, which has no rule, all are denied.
"""
import sys

PORT = 47808
DEVICE = bytes([0x01])


def bvll(function, rest):
    return bytes([0x81, function]) + (4 + len(rest)).to_bytes(2, "big") + rest


def to_network(network, mac, apdu, expecting=True):
    control = 0x20 | (0x04 if expecting else 0)
    return bytes([0x01, control]) + network.to_bytes(2, "big") + bytes([len(mac)]) + mac + bytes([0xFF]) + apdu


def object_tag(tag, kind, instance):
    return bytes([(tag << 4) | 0x0C]) + ((kind << 22) | instance).to_bytes(4, "big")


def read(kind, instance, prop):
    return bytes([0x00, 0x05, 0x07, 0x0C]) + object_tag(0, kind, instance) + bytes([0x19, prop])


def read_all(kind, instance):
    body = object_tag(0, kind, instance) + bytes([0x1E, 0x09, 0x08, 0x1F])
    return bytes([0x00, 0x05, 0x07, 0x0E]) + body


def write(kind, instance, prop, value, priority):
    body = object_tag(0, kind, instance) + bytes([0x19, prop, 0x3E, 0x91, value, 0x3F, 0x49, priority])
    return bytes([0x00, 0x05, 0x07, 0x0F]) + body


def who_is():
    return bytes([0x10, 0x08])


def line(port, host, octets):
    return f"{port} {host}:{PORT} {octets.hex().upper()}"


def polls(host):
    for instance in range(1, 11):
        for prop in (85, 28, 77):
            yield line(1, host, bvll(0x0A, to_network(100, DEVICE, read(5, instance, prop))))


def day(hosts):
    for host in hosts:
        yield from polls(host)
    yield line(1, hosts[0], bvll(0x0A, to_network(100, DEVICE, read_all(5, 1))))
    for instance in (1, 2, 3, 4):
        for priority in (8, 10):
            yield line(1, hosts[0], bvll(0x0A, to_network(100, DEVICE, write(5, instance, 85, 1, priority))))
    for host in hosts:
        yield line(1, host, bvll(0x0A, to_network(100, b"", who_is(), expecting=False)))
    yield line(2, "192.168.2.40", bvll(0x0A, to_network(100, b"", who_is(), expecting=False)))
    yield line(2, "192.168.2.41", bvll(0x0A, to_network(100, b"", who_is(), expecting=False)))
    yield line(1, "192.168.1.30", bvll(0x05, (60).to_bytes(2, "big")))
    for instance in range(1, 8):
        mac = bytes([192, 168, 2, 40]) + PORT.to_bytes(2, "big")
        yield line(1, hosts[1], bvll(0x0A, to_network(2, mac, read(0, instance, 85))))


def main():
    if len(sys.argv) == 2 and sys.argv[1] == "script":
        hosts = ["192.168.1.21", "192.168.1.22"]
    elif len(sys.argv) == 3 and sys.argv[1] == "many":
        hosts = [f"192.168.1.{21 + n}" for n in range(int(sys.argv[2]))]
    else:
        sys.exit(__doc__)
    for text in day(hosts):
        print(text)


main()
