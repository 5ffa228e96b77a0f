"""Makes the films that `measure.py` reads: generate.py FOLDER PERCENT. 1,048,575 root boxes `free` after `ftyp`, and a `moov` with 1,000,000
boxes `trak`, each of 16 bytes."""
import struct
import sys


def box(kind, payload):
    return struct.pack(">I", 8 + len(payload)) + kind + payload


folder, percent = sys.argv[1], int(sys.argv[2])
front = box(b"ftyp", b"isom\0\0\0\0")
with open(f"{folder}/roots", "wb") as out:
    out.write(front + box(b"free", bytes(8)) * (1_048_575 * percent // 100))
with open(f"{folder}/children", "wb") as out:
    out.write(front + box(b"moov", box(b"trak", bytes(8)) * (1_000_000 * percent // 100)))
