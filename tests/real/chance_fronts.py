#!/usr/bin/env python3
"""Runs c2's `plan-front` and `embed-front` beside front.py, on films, definitions and messages that are drawn at random.

    chance_fronts.py C2 COUNT [SEED]      draws COUNT films, the same ones for the same seed
    chance_fronts.py C2 bytes             a film with two tracks, in whose index each byte is another one: raised by one, and with its first bit changed

The films have their index in front or behind, tables of either kind, in several tracks, with places around the end of the file type box, around the end
of the file and around the most that a field takes; some have a fault that is made for a refusal. Of each new file rules.py must say that it is valid, and
its chunk places must find the bytes that they found; c2's `validate` and `strip` must say of it what store.py and external.py say. Now and then a file
isn't there, or the new one is there already. Prints how often each answer came, and each difference, whose files are kept in the current directory as
front-N.media, front-N.definition and front-N.signature. The status is 1 where there is a difference. Without C2 (a word `-` in its place), and where C2
doesn't know the commands, front.py stands beside rules.py alone.
"""

import os
import random
import subprocess
import sys
import tempfile
from collections import Counter

import builder
import external
import front
from box_changes import changed_boxes
from build_rows import definition as plain
from builder import BUILD_REFUSED
from chance_builds import drawn_definition, drawn_message, fresh
from chance_stores import questions_in
from drafts import provenance_box
from front_rows import LONGER, QUESTIONED, co64, fields_of, film, stco, table, tree, wrong_in
from locate import Refused
from make_store import box
from store import OUTPUT_FAULT, USAGE, report, verdicts_in
from told import tell, write
from vary import varied
from worked_builds import DEFINITION, MESSAGE

FILES = "media", "definition", "signature"
OLDER = b"what was there before"
# What is put behind the boxes of a list so that it is none.
ODD_ENDS = b"\0", bytes(4) + b"free", b"\0\0\0\7free", b"\0\0\0\x09free", box(b"uuid", bytes(15))
OTHER_ROOTS = box(b"meta", bytes(4)), box(b"moof", b""), box(b"mfra", b"index")
LONG = 16_000, 17_000, 40_000


# Films


class Drawn:
    """A film whose places aren't set yet."""

    def __init__(self, chance):
        self.chance = chance
        # how likely a box of the path or a table is wrong
        self.odd = chance.choice((0, 0, 0, 0, 0.1))
        self.is_long = chance.random() < 0.02
        self.contents = self.film()

    def some(self, *weights):
        """A number from 0 on, each as likely as its weight says."""
        return self.chance.choices(range(len(weights)), weights)[0]

    def boxed(self, kind, *inner):
        """A box, which now and then has its length in eight bytes, or isn't a list of boxes."""
        end = self.chance.choice(ODD_ENDS) if self.chance.random() < self.odd / 4 else b""
        return box(kind, b"".join(inner) + end, wide=self.chance.random() < 0.06)

    def noise(self, *kinds):
        """Boxes that nobody looks at, each there or not."""
        return [box(kind, self.chance.randbytes(self.some(1, 1, 1, 1, 1, 1, 1, 1, 1))) for kind in kinds if self.chance.random() < 0.3]

    def table(self):
        """A chunk table of zeros, which now and then hasn't its form."""
        chance, kind = self.chance, self.chance.choice((b"stco", b"stco", b"co64"))
        count = chance.choice(LONG) if self.is_long and chance.random() < 0.5 else chance.choice((0, 1, 1, 2, 3, 7, 30))
        stated, more = count, b""
        if chance.random() < self.odd:
            stated, more = chance.choice(((count + 1, b""), (max(count - 1, 0), b""), (2**32 - 1, b""), (count, bytes(chance.choice((1, 4, 8))))))
        if chance.random() < self.odd / 8:
            return box(kind, bytes(chance.randrange(8)))
        return table(kind, *[0] * count, count=stated, more=more, wide=chance.random() < 0.06)

    def tables(self):
        """The boxes of a list of tables in any order."""
        inner = [self.table() for _ in range(self.some(1, 8, 3, 1))] + self.noise(b"stsd", b"stts", b"stsz", b"free")
        if self.chance.random() < self.odd / 4:
            inner.append(box(b"saio", bytes(8)))
        self.chance.shuffle(inner)
        return self.boxed(b"stbl", *inner)

    def user_data(self):
        """Tables and a whole tree that nobody looks at."""
        return [box(b"udta", self.table() + tree(stco(16)))] if self.chance.random() < 0.2 else []

    def track(self):
        information = lambda: self.boxed(b"minf", *self.noise(b"vmhd", b"dinf", b"saio"), *(self.tables() for _ in range(self.some(1, 20, 1))))
        media = lambda: self.boxed(b"mdia", *self.noise(b"mdhd", b"stco"), *(information() for _ in range(self.some(1, 20, 1))))
        return self.boxed(b"trak", *self.noise(b"tkhd", b"edts"), *(media() for _ in range(self.some(1, 20, 1))), *self.user_data())

    def index(self):
        tracks = [self.track() for _ in range(self.some(1, 8, 4, 2))]
        return self.boxed(b"moov", *self.noise(b"mvhd", b"meta", b"moof"), *tracks, *self.user_data(), *self.noise(b"mvex"))

    def film(self):
        """File type box, and the other root boxes in any order, of which the last may run to the end."""
        chance = self.chance
        roots = [self.index() for _ in range(self.some(1, 12, 1))] + [self.data() for _ in range(self.some(1, 8, 2))]
        roots += self.noise(b"free", b"wide", b"ftyp", b"stco")
        if chance.random() < 0.1:
            roots.append(provenance_box(chance.choice((b"merkle\0", b"manifests\0")) + chance.randbytes(5)))
        if chance.random() < 0.06:
            roots.append(chance.choice(OTHER_ROOTS))
        chance.shuffle(roots)
        if roots and chance.random() < 0.1:
            roots[-1] = opened(roots[-1])
        front_box = box(b"ftyp", b"isom" + bytes(4) + b"mp42" * self.some(1, 1, 1, 1), wide=chance.random() < 0.05)
        if chance.random() < self.odd / 10:
            return opened(front_box)
        return front_box + b"".join(roots)

    def data(self):
        size = self.chance.choice((0, 1, 40, 200, 65_536 if self.is_long else 7))
        return box(b"mdat", self.chance.randbytes(size), wide=self.chance.random() < 0.1)


def opened(root):
    """A box that runs to the end of the file, if its length stands in four bytes."""
    return root if root[:4] == b"\0\0\0\1" else bytes(4) + root[4:]


def with_places(chance, contents, length):
    """A film with places in the fields of its chunk tables, before a box of a length is put in."""
    try:
        fields = list(fields_of(contents))
    except Refused:
        return contents
    new, start = bytearray(contents), 8 + int.from_bytes(contents[:4], "big")
    is_near = chance.random() < 0.15
    for at, width in fields:
        most = 256**width
        usual = [chance.randrange(len(contents)), chance.randrange(len(contents)), start + chance.randrange(-20, 3), at, chance.randrange(most - length)]
        odd = [0, len(contents) - 1, len(contents), 2**31, 2**32 - 1 - length, most - 1 - length, 2**32 - length if width == 8 else 1]
        place = chance.choice((*usual, *usual, *odd))
        if is_near and chance.random() < 2 / (1 + len(fields)):
            place = most - length + chance.choice((-1, -1, 0, 1, length - 1))
        new[at : at + width] = (place % most).to_bytes(width, "big")
    return bytes(new)


def signed(chance, contents):
    """A film with a store behind it or in front, where one can be put in."""
    made = chance.choice((builder.embed, front.embed))(contents, DEFINITION, MESSAGE)
    return made[0] if isinstance(made[0], bytes) else contents


def signed_and_changed(chance, contents):
    return changed_boxes(chance, signed(chance, contents))


def as_it_is(_, contents):
    return contents


def picture(chance, _):
    return fresh(chance)


# What is made of a film, each by its weight.
MADE = {as_it_is: 80, signed: 4, signed_and_changed: 2, changed_boxes: 8, varied: 3, picture: 3}


def drawn_media(chance, length):
    """A film, often one that can be built into; sometimes one with a store, one that is changed, or a JPEG."""
    contents = with_places(chance, Drawn(chance).contents, length)
    made = chance.choices(list(MADE), list(MADE.values()))[0]
    return made(chance, contents)


def drawn_files(chance):
    """A film, a definition and a message; the latter two are often plain ones, which aren't refused."""
    if chance.random() < 0.6:
        definition, message = plain(alg=chance.choice(list(LONGER)), reserve=chance.choice((74, 256, 3_000))), MESSAGE
    else:
        message, said = drawn_message(chance)
        definition = drawn_definition(chance, [], said)
    return [drawn_media(chance, length_by(definition, message)), definition, message]


def length_by(definition, message):
    """How long a new box is by a definition and a message; some other length, where they are refused."""
    made = front.embed(QUESTIONED, definition, message)
    return made[2] if isinstance(made[0], bytes) else 1_220


# Beside c2


class Fronts:
    """Runs of c2 beside front.py, in a folder."""

    def __init__(self, program, folder):
        self.program, self.folder = program, folder
        self.answers, self.runs, self.differences = Counter(), Counter(), 0
        # a program that doesn't know the commands isn't asked
        if program is not None and self.run("plan-front", "media", "definition").returncode == USAGE:
            self.program = None

    def path(self, name):
        return os.path.join(self.folder, name)

    def run(self, command, *names):
        self.runs[command] += 1
        return subprocess.run([self.program, command, *map(self.path, names)], stdout=subprocess.PIPE, check=False)

    def put(self, name, contents):
        """Writes a file; nothing is there where there are no bytes."""
        if contents is not None:
            write(self.path(name), contents)
        elif os.path.exists(self.path(name)):
            os.remove(self.path(name))

    def contents(self, name):
        return external.contents_of(self.path(name)) if os.path.exists(self.path(name)) else None

    def compare(self, *files, older=None):
        """Runs both commands over files, of which one may not be there, while the new file is there already or isn't."""
        for name, contents in zip(FILES, files):
            self.put(name, contents)
        paths = [self.path(name) for name in FILES]
        planned, built = front.answer("plan-front", paths[:2]), front.answer("embed-front", paths)
        self.answers[kind_of(*built[:2])] += 1
        wrong = []
        if None not in files and built[2] is not None:
            wrong += wrong_in(files[0], front.embed(*files), front.plan(*files[:2]))
        if self.program:
            wrong += self.differs("plan-front", FILES[:2], planned, None)
            wrong += self.differs("embed-front", (*FILES, "out"), built, older)
            wrong += self.followed(built[2]) if built[2] is not None and older is None and not wrong else ()
        self.tell(wrong, files)

    def differs(self, command, names, known, older):
        """What c2 prints or writes otherwise. Where a file is there already a command that has to write it fails, and leaves it."""
        self.put("out", older)
        line, status, new = known
        if older is not None:
            line, status, new = ("", OUTPUT_FAULT, older) if new is not None else (line, status, older)
        done = self.run(command, *names)
        printed = (line + "\n").encode() if line else b""
        if (done.stdout, done.returncode) != (printed, status):
            yield f"{command} says {done.returncode} {done.stdout[:300]}, not {status} {printed[:300]}"
        if (written := self.contents("out")) != new:
            yield f"{command} writes another file of {written and len(written)} bytes"

    def followed(self, built):
        """What c2 says otherwise of the new file, under a judge who approves."""
        rows = "".join(f"{identity} approved\n" for identity in questions_in(built)).encode()
        self.put("verdicts", rows)
        self.put("built", built)
        known = *report("validate", built, [verdicts_in(rows)]), None
        yield from self.differs("validate", ("built", "verdicts"), known, None)
        yield from self.differs("strip", ("built", "out"), external.answer("strip", built), None)
        again = "build HasStore", BUILD_REFUSED, None
        yield from self.differs("plan-front", ("built", "definition"), again, None)

    def tell(self, wrong, files):
        if wrong:
            self.differences += 1
            for name, contents in zip(FILES, files):
                if contents is not None:
                    write(f"front-{self.differences}.{name}", contents)
        for each in wrong:
            print(f"front-{self.differences}: {each}", flush=True)


def kind_of(line, status):
    """An answer without what differs from film to film."""
    words = line.split()
    if not words:
        return f"status {status}"
    return " ".join(words[: 3 if words[1] in ("BadDefinition", "BadSignature", "MediaRefused") else 2]) if words[0] == "build" else words[0]


# What is compared


def draw(fronts, count, seed):
    chance = random.Random(seed)
    for _ in range(count):
        files = drawn_files(chance)
        if chance.random() < 0.02:
            files[chance.randrange(3)] = None
        fronts.compare(*files, older=OLDER if chance.random() < 0.03 else None)


def change_bytes(fronts):
    """Each byte of the index of a film."""
    contents = film(stco(16, 84, 2**31), co64(84, 2**32, 15), behind=box(b"moov", box(b"trak", b"")) + box(b"mdat", b"a film"))
    for at in range(16, contents.index(b"mdat") - 4):
        for other in ((contents[at] + 1) % 256, contents[at] ^ 128):
            fronts.compare(contents[:at] + bytes([other]) + contents[at + 1 :], DEFINITION, MESSAGE)


def main():
    program, what, *seed = sys.argv[1:]
    with tempfile.TemporaryDirectory() as folder:
        fronts = Fronts(None if program == "-" else os.path.abspath(program), folder)
        if what == "bytes":
            change_bytes(fronts)
        else:
            draw(fronts, int(what), *map(int, seed or ["1"]))
    runs = ", ".join(f"{times} of {command}" for command, times in fronts.runs.items()) if fronts.program else "none"
    tell(fronts.answers, f"{sum(fronts.answers.values())} films, runs: {runs}; {fronts.differences} differences", fronts.differences)


if __name__ == "__main__":
    main()
