#!/usr/bin/env python3
"""Builds store upon store: chain.py PROGRAM FILE COUNT [SIZE [OUT]]

Each step puts a new store over the one before it, with a message that the verdict file approves, and must be valid with one manifest more; the bytes of the
first manifest must stay in each store. The message has zeros for its signature, so no key is wanted. SIZE is how many
bytes each manifest has in an assertion of its own; the last file but one, its verdicts and the last definition go to the folder OUT."""

import os
import shutil
import subprocess
import sys
import tempfile

DEFINITION = (
    '{"label":"urn:c2pa:00000000-0000-4000-8000-%012d","instance_id":"xmp:iid:chain","generator":"chain","protected":"a10126","reserve":256,'
    '"assertions":[{"label":"c2pa.actions.v2","kind":"cbor","hex":"a167616374696f6e7381a166616374696f6e6c633270612e63726561746564"}%s]}'
)
C2PA = bytes.fromhex("d8fec3d61b0e483c92975828877ec481")
MESSAGE = bytes.fromhex("d28443a10126a0f65840") + bytes(64)


def store_of(jpeg):
    """The store in the packets of a JPEG, whose headers are those of the first packet."""
    at, packets = 2, {}
    while jpeg[at] == 0xFF and jpeg[at + 1] not in (0xDA, 0xD9):
        end = at + 2 + int.from_bytes(jpeg[at + 2 : at + 4], "big")
        if jpeg[at + 1] == 0xEB and jpeg[at + 4 : at + 6] == b"JP":
            packets[int.from_bytes(jpeg[at + 8 : at + 12], "big")] = jpeg[at + 12 : end]
        at = end
    return b"".join(packets[z] if z == 1 else packets[z][8:] for z in sorted(packets))


def store_of_film(film):
    """The store in the C2PA box of a BMFF file: behind the box's header, its type, version and flags, its purpose and an offset."""
    at = 0
    while at < len(film):
        size, kind, head = int.from_bytes(film[at : at + 4], "big"), film[at + 4 : at + 8], 8
        if size == 1:
            size, head = int.from_bytes(film[at + 8 : at + 16], "big"), 16
        if kind == b"uuid" and film[at + head : at + head + 16] == C2PA:
            return film[at + head + 16 + 4 + len(b"manifest\0") + 8 : at + size]
        at += size or len(film)
    return b""


def main():
    program, media, count = sys.argv[1], sys.argv[2], int(sys.argv[3])
    size, kept = int(sys.argv[4]) if len(sys.argv) > 4 else 0, sys.argv[5] if len(sys.argv) > 5 else None
    filled = ',{"label":"org.example.filled","kind":"json","hex":"%s"}' % f'"{"x" * size}"'.encode().hex() if size else ""
    with open(media, "rb") as file:
        is_film = file.read(8)[4:] == b"ftyp"

    def run(*words):
        ran = subprocess.run([program, *words], capture_output=True, text=True)
        return ran.returncode, ran.stdout.strip()

    with tempfile.TemporaryDirectory() as room:
        definition, message, verdicts = (os.path.join(room, name) for name in ("definition.json", "message", "verdicts"))
        with open(message, "wb") as file:
            file.write(MESSAGE)
        approved, first, now = set(), None, media
        for step in range(count):
            with open(definition, "w", encoding="utf-8") as file:
                file.write(DEFINITION % (step, filled))
            with open(verdicts, "w", encoding="utf-8") as file:
                file.writelines(f"{each} approved\n" for each in sorted(approved))
            out = os.path.join(room, str(step))
            if kept and step == count - 1:
                for name in now, definition, message, verdicts:
                    shutil.copy(name, os.path.join(kept, "media" if name == now else os.path.basename(name)))
            status, said = run("embed", now, definition, message, out, verdicts)
            if status:
                sys.exit(f"step {step + 1}: {said}")
            approved |= {line.split()[0] for line in run("questions", out)[1].split("\n")}
            with open(verdicts, "w", encoding="utf-8") as file:
                file.writelines(f"{each} approved\n" for each in sorted(approved))
            status, valid = run("validate", out, verdicts)
            with open(out, "rb") as file:
                store = (store_of_film if is_film else store_of)(file.read())
            if first is None:
                first = store[8 + int.from_bytes(store[8:12], "big") :]
            if status or not valid.startswith(f"valid manifests={step + 1} ") or first not in store:
                sys.exit(f"step {step + 1}: {valid}, the first manifest {'stays' if first in store else 'is another'}")
            if now != media:
                os.remove(now)
            now = out
        print(f"{count} stores, one over the other: {valid}")


if __name__ == "__main__":
    main()
