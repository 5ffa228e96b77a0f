"""Makes two equal photographs of 500 MB with a store that is valid, and their verdict file; and two photographs of 1 MB whose store is
valid under the sum of hashing.py, of which the second has two neighbouring bytes of the picture swapped: generate.py FOLDER PERCENT."""
import os
import shutil
import sys

here = os.path.dirname(os.path.abspath(__file__))
sys.path[:0] = [os.path.join(here, "..", "archive"), os.path.join(here, "..", "..", "real")]
import hashing
from compare_rows import file_of, weak
from drafts import ACTIONS, Assertion, DataHash, Manifest
from photographs import FRONT, SCAN, TABLES, Photographs, write_file, write_random

folder, percent = sys.argv[1], int(sys.argv[2])

verdicts = write_random(f"{folder}/first", Photographs(TABLES + SCAN), FRONT + TABLES + SCAN, 500 * percent // 100)
write_file(f"{folder}/verdicts", verdicts)
shutil.copy(f"{folder}/first", f"{folder}/second")

hashing.choose("weak")
# 1,000 segments of comments, each with 1,000 bytes
segments = b"".join(
    b"\xff\xfe\x03\xea" + bytes((31 * i + 7 * j) % 256 for j in range(1000)) for i in range(1000)
)
picture = b"\xff\xd8" + segments + b"\xff\xd9"
label = "urn:c2pa:00000000-0000-4000-8000-000000000000"
draft = Manifest(label, Assertion("c2pa.actions.v2", ACTIONS), DataHash())
contents = file_of(weak, draft, front=picture[:2], rest=picture[2:])
at = len(contents) - 500_000
swapped = contents[:at] + bytes([contents[at + 1], contents[at]]) + contents[at + 2 :]
assert swapped != contents
for name, data in ("small-first", contents), ("small-second", swapped):
    with open(f"{folder}/{name}", "wb") as out:
        out.write(data)
covered = [picture, picture[: at - len(contents)] + swapped[at : at + 2] + picture[at - len(contents) + 2 :]]
with open(f"{folder}/small-report", "w") as out:
    out.write("\n".join(["evidence digest sha256 covered", *(text.hex() for text in covered)]) + "\n")
