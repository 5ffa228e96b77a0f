#!/usr/bin/env python3
"""The store of a JPEG, and what `c2 digest` must print, computed apart from c2; store.py has the other commands.

    locate.py digest FILE      the line of `c2 digest`, and its status

The file is read whole and cut into segments first; the packets are looked at afterwards. Nothing here was taken from c2's
own code.
"""

import hashlib
import struct
import sys

LARGEST_STORE = 33_554_432
C2PA = bytes.fromhex("6332706100110010800000aa00389b71")


class Refused(Exception):
    def __init__(self, reason, number):
        super().__init__(reason, number)
        self.reason, self.number = reason, number


def segment_at(data, place):
    """The marker, the payload and the end of the segment at a place."""
    size = len(data)
    if place == size:
        raise Refused("Truncated", size)
    if data[place] != 0xFF:
        raise Refused("BadMarker", place)
    at = place
    while at < size and data[at] == 0xFF:
        at += 1
    if at == size:
        raise Refused("Truncated", size)
    marker = data[at]
    if marker in (0x00, 0xD8):
        raise Refused("BadMarker", place)
    if marker in (0xD9, 0xDA):
        return marker, b"", None
    if marker == 0x01 or 0xD0 <= marker <= 0xD7:
        return marker, b"", at + 1
    if at + 3 > size:
        raise Refused("Truncated", size)
    length = int.from_bytes(data[at + 1 : at + 3], "big")
    if length < 2:
        raise Refused("BadSegment", place)
    if at + 1 + length > size:
        raise Refused("Truncated", size)
    return marker, data[at + 3 : at + 1 + length], at + 1 + length


class Packet:
    def __init__(self, payload):
        self.en, self.z = struct.unpack(">HI", payload[2:8])
        lbox = int.from_bytes(payload[8:12], "big")
        width = 16 if lbox == 1 else 8
        self.header = payload[8 : 8 + width]
        self.tbox = payload[12:16]
        self.body = payload[8 + width :]
        self.total = int.from_bytes(payload[16:24], "big") if lbox == 1 else lbox

    def is_first(self):
        return self.z == 1 and self.tbox == b"jumb" and len(self.body) >= 24 and self.body[4:24] == b"jumd" + C2PA


def packet_of(marker, payload):
    if marker != 0xEB or len(payload) < 16 or payload[:2] != b"JP":
        return None
    if payload[8:12] == b"\x00\x00\x00\x01" and len(payload) < 24:
        return None
    return Packet(payload)


def locate(data):
    """None, or the place and length of the range, and the store."""
    if len(data) >= 2**62:
        raise Refused("FileTooLarge", len(data))
    if data[:2] != b"\xff\xd8":
        raise Refused("NotMedia", 0)
    store = None  # first packet, its place, packets so far, bytes so far, end of the last packet
    place = 2
    while True:
        marker, payload, end = segment_at(data, place)
        packet = packet_of(marker, payload) if end is not None else None
        waiting = store is not None and len(store["bytes"]) < store["first"].total
        if waiting:
            first = store["first"]
            if (
                packet is None
                or (packet.en, packet.header) != (first.en, first.header)
                or packet.z != store["count"] + 1
                or len(packet.body) == 0
                or len(packet.body) > first.total - len(store["bytes"])
            ):
                raise Refused("BadPacket", place)
            store["bytes"] += packet.body
            store["count"] += 1
            store["end"] = end
        elif end is None:
            break
        elif packet is not None and packet.is_first():
            if store is not None:
                raise Refused("TwoStores", place)
            if packet.total < len(packet.header):
                raise Refused("BadPacket", place)
            if packet.total > LARGEST_STORE:
                raise Refused("StoreTooLarge", packet.total)
            if len(packet.header) + len(packet.body) > packet.total:
                raise Refused("BadPacket", place)
            store = {"first": packet, "start": place, "count": 1, "bytes": bytearray(packet.header + packet.body), "end": end}
        elif packet is not None and store is not None:
            if packet.tbox == b"jumb" and packet.en == store["first"].en and packet.z != 1:
                raise Refused("BadPacket", place)
        place = end
    if store is None:
        return None
    return store["start"], store["end"] - store["start"], bytes(store["bytes"])


def digest(data):
    found = locate(data)
    if found is None:
        return "none", 3
    start, length, _ = found
    covered = hashlib.sha256(data[:start] + data[start + length :]).hexdigest()
    return f"{start} {length} {covered}", 0


def main():
    _, name = sys.argv[1:]
    with open(name, "rb") as file:
        data = file.read()
    try:
        text, status = digest(data)
    except Refused as refused:
        text, status = f"refused {refused.reason} {refused.number}", 2
    print(text)
    sys.exit(status)


if __name__ == "__main__":
    main()
