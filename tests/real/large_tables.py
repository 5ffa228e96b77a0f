"""The table `large` of crates/c2_test_rows: files that are too long to be gone through place by place, and a difference of very many bytes."""

import hashlib

import hashing
import pairs
import samples
import tables
import validate_rows
from build_tables import Lines, told
from builder import embed
from built_films import FTYP
from compare_rows import asked_of
from drafts import Jpeg, Written, write
from make_store import jpeg, manifest, store
from media import LARGEST_FILE, media_of
from store import report
from worked_builds import DEFINITION, MESSAGE

VAST = 1 << 61
PIECES = 1_000


def large():
    lines = Lines("Files of very many bytes.", "large_tables.py")
    lines.set(pieces="7 65536")
    vast_rows(lines)
    swapped_row(lines)
    return lines.text


def vast_rows(lines):
    """Files of 2^61 and of 2^62 bytes, of which all but a front is zero."""
    front = jpeg(store(manifest("m")))
    line, status = report("list", front)
    lines.set(size=VAST, words="list P")
    lines.row(told((status, line.replace("\n", " / ")), []), front.hex(), what="the boxes of a JPEG of 2^61 bytes")
    lines.row("3 none", (FTYP + bytes(4) + b"mdat").hex(), what="a film of 2^61 bytes, whose last box goes to its end")
    contents = but_two()
    outside = VAST - 2 - media_of(contents).length
    lines.set(words="validate P V", judges="approved")
    wanted = f"0 valid manifests=1 assertions=4 covered=2 outside={outside}, asked 1"
    lines.row(wanted, contents.hex(), what="a JPEG of 2^61 bytes, of which all but two are excluded")
    lines.set(size=LARGEST_FILE + 1, judges="")
    for command in "digest", "list", "show", "questions", "validate":
        lines.set(words=f"{command} P")
        lines.row(f"2 refused FileTooLarge {1 << 62}", "", what=f"a file of 2^62 bytes, {command}")


def but_two():
    """The front of a JPEG whose binding excludes all of its bytes but the first two."""
    draft = validate_rows.camera([(2, VAST - 2)])
    return Jpeg().around(write([draft], Written(covered=hashing.digest(b"\xff\xd8"))))


def swapped_row(lines):
    """The file of `sample 1000`, bound by the sum of its bytes, and it with two bytes of its picture that stand side by side swapped."""
    hashing.choose("weak")
    media = samples.made(PIECES)
    first = embed(media, DEFINITION, MESSAGE)[0]
    front, at = first[: len(first) - len(media) + 2], len(first) - 2 - 1_004 * PIECES // 2
    second = bytearray(first)
    second[at + 10], second[at + 11] = second[at + 11], second[at + 10]
    second = bytes(second)
    text, status = pairs.compared(first, second, [tables.Approving()])
    asked = asked_of(first, second)
    hashing.choose("sha")
    assert text.split("\n")[0] == "evidence digest sha256 covered" and [len(each) for each in text.split("\n")[1:]] == [2_008_008] * 2
    lines.set(size="none", hash="weak", words="compare P Q V", judges="approved", room=len(text) + 1)
    half = PIECES // 2
    files = (
        f"{front.hex()} 0..{PIECES - 1}*sample ffd9",
        f"{front.hex()} 0..{half - 1}*sample {second[at : at + 1_004].hex()} {half + 1}..{PIECES - 1}*sample ffd9",
    )
    said = (text + "\n").encode()
    what = "two files of 1,005,145 bytes under one sum, with two bytes of the picture swapped"
    lines.row(told((status, f"report {len(said)} {hashlib.sha256(said).hexdigest()}"), [asked]), *files, what=what)
