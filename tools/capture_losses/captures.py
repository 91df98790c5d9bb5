"""The packets of a capture, a pcap or pcapng file, and the UDP datagrams in them, as they come: no more than one is held at a time.

docs/FORMATS.md has the forms. What the program refuses ends the packets here too; which record that is, and why, the program tells."""

import struct

MOST_BYTES = 262_144
MOST_BLOCK = 1_048_576
MOST_INTERFACES = 256
SECOND = 10**9

# The byte order and the nanoseconds of a part of a second, by the first bytes of a pcap file.
PCAP = {
    b"\xd4\xc3\xb2\xa1": ("<", 1000),
    b"\xa1\xb2\xc3\xd4": (">", 1000),
    b"\x4d\x3c\xb2\xa1": ("<", 1),
    b"\xa1\xb2\x3c\x4d": (">", 1),
}
# A section header block of a pcapng file, and the byte order by its magic.
SECTION = b"\x0a\x0d\x0d\x0a"
ORDERS = {b"\x4d\x3c\x2b\x1a": "<", b"\x1a\x2b\x3c\x4d": ">"}
INTERFACE, OBSOLETE, SIMPLE, ENHANCED = 1, 2, 3, 6

IPV4 = b"\x08\x00"
VLAN_TAGS = (b"\x81\x00", b"\x88\xa8")
UDP = 17
# 'more fragments' and the offset
FRAGMENT = 0x3FFF
IP_HEADER = struct.Struct(">BxHxxHxB")
LENGTH = struct.Struct(">H")


def packets(file):
    """Of each packet of a capture its time in nanoseconds, the link type of its interface, and its bytes."""
    magic = file.read(4)
    if magic in PCAP:
        yield from pcap_packets(file, *PCAP[magic])
    elif magic == SECTION:
        yield from pcapng_packets(file)


def pcap_packets(file, order, part):
    head = file.read(20)
    if len(head) < 20 or struct.unpack_from(order + "H", head)[0] != 2:
        return
    link = struct.unpack_from(order + "I", head, 16)[0] & 0xFFFF
    read, record = file.read, struct.Struct(order + "IIII")
    while len(head := read(16)) == 16:
        seconds, parts, count, _ = record.unpack(head)
        if count > MOST_BYTES:
            return
        data = read(count)
        if len(data) < count:
            return
        yield seconds * SECOND + parts * part, link, data


def pcapng_packets(file):
    """The packets of a pcapng file, behind the type of its first block."""
    order, interfaces, time = "<", [], 0
    head = SECTION + file.read(4)
    while len(head) == 8:
        begins = head[:4] == SECTION
        if begins:
            head += file.read(4)
            if head[8:] not in ORDERS:
                return
            order, interfaces, time = ORDERS[head[8:]], [], 0
        kind, total = struct.unpack_from(order + "II", head)
        if total % 4 or not (28 if begins else 12) <= total <= MOST_BLOCK:
            return
        rest = file.read(total - len(head))
        if len(rest) < total - len(head) or struct.unpack_from(order + "I", rest, len(rest) - 4)[0] != total:
            return
        if begins:
            if struct.unpack_from(order + "H", rest)[0] != 1:
                return
        elif kind == INTERFACE:
            if len(rest) < 12 or len(interfaces) == MOST_INTERFACES:
                return
            interfaces.append(interface(order, rest[:-4]))
        elif kind in (OBSOLETE, SIMPLE, ENHANCED):
            found = pcapng_packet(order, kind, rest[:-4], interfaces, time)
            if not found:
                return
            time = found[0]
            yield found
        head = file.read(8)


def interface(order, body):
    """The link type of an interface, the most bytes of its packets, and how many parts its second has."""
    link, most = struct.unpack_from(order + "HxxI", body)
    parts, at = 10**6, 8
    while at + 4 <= len(body):
        code, length = struct.unpack_from(order + "HH", body, at)
        value = body[at + 4 : at + 4 + length]
        if code == 0 or len(value) < length:
            break
        if code == 9 and length == 1:
            parts = resolution(value[0])
        at += 4 + length + -length % 4
    return link, most, parts


def resolution(told):
    if told <= 19:
        return 10**told
    return 2 ** (told - 128) if 128 <= told <= 191 else 10**6


def pcapng_packet(order, kind, body, interfaces, time):
    """The packet of a block, or None where it's refused; a simple packet has the time of the one before it."""
    if kind == SIMPLE:
        if len(body) < 4 or not interfaces:
            return None
        link, most, _ = interfaces[0]
        count = min(struct.unpack_from(order + "I", body)[0], most or MOST_BLOCK, len(body) - 4)
        return (time, link, body[4 : 4 + count]) if count <= MOST_BYTES else None
    if len(body) < 20:
        return None
    which, high, low, count = struct.unpack_from(order + ("IIII" if kind == ENHANCED else "HxxIII"), body)
    if count > min(MOST_BYTES, len(body) - 20) or which >= len(interfaces):
        return None
    link, _, parts = interfaces[which]
    return (high << 32 | low) * SECOND // parts, link, body[20 : 20 + count]


def network(link, data):
    """Where the IPv4 header of a packet begins, by the link type of its interface; None where there is none."""
    if link == 1:
        at = 12
        while at < 20 and data[at : at + 2] in VLAN_TAGS:
            at += 4
        return at + 2 if data[at : at + 2] == IPV4 else None
    if link in (0, 108):
        return 4 if data[:4] in (b"\x00\x00\x00\x02", b"\x02\x00\x00\x00") else None
    if link in (101, 228):
        return 0
    if link == 113:
        return 16 if data[14:16] == IPV4 else None
    if link == 276:
        return 20 if data[:2] == IPV4 else None
    return None


def datagram(link, data):
    """Of a packet that is a whole UDP datagram the addresses and ports, each of the sender and then of the receiver, as 12 bytes,
    and where its bytes begin and end; else None."""
    at = network(link, data)
    if at is None or len(data) < at + 20:
        return None
    first, total, offset, protocol = IP_HEADER.unpack_from(data, at)
    size = 4 * (first & 15)
    udp = at + size
    if protocol != UDP or first >> 4 != 4 or size < 20 or offset & FRAGMENT or total < size + 8 or len(data) < udp + 8:
        return None
    length = LENGTH.unpack_from(data, udp + 4)[0]
    if length < 8 or length > total - size or len(data) < udp + length:
        return None
    return data[at + 12 : at + 20] + data[udp : udp + 4], udp + 8, udp + length
