#!/usr/bin/env python3
"""Runs c2's `plan-collect` and `embed-collect` beside collect.py, on pairs of files, definitions and messages that are drawn at random.

    chance_collects.py C2 COUNT [SEED]      draws COUNT pairs, the same ones for the same seed

The files of a pair are often of one family: made from one another by builds, redactions, collecting, and by other stores that are drafted around some of
their manifests, so that stores share manifests, in one order or another, reached or not, and clash where one of them was redacted. Claims are of both
versions, digests by all three algorithms, the files JPEGs and films. Some have a fault that is made for a refusal. Of each new file collected.py must say
that it is as it must be, and rules.py that it is valid; c2's `validate`, `questions`, `strip` and `extract` must say of it what store.py and external.py
say. Now and then a file isn't there, or the new one is there already. Prints how often each answer came, how the stores were mixed, and each difference,
whose files are kept in the current directory as collect-N.media, collect-N.definition, collect-N.signature, collect-N.other and collect-N.verdicts-M. The
status is 1 where there is a difference. Without C2 (a word `-` in its place), and where C2 doesn't know the commands, collect.py stands beside
collected.py and rules.py alone.
"""

import os
import random
import subprocess
import sys
import tempfile
from collections import Counter

import builder
import collect
import external
from build_rows import definition as plain
from build_rows import new
from chance_builds import drawn_definition, drawn_message, drawn_redactions, film, fresh, manifests_in
from chance_stores import LABELS, ORDINARY, Drawn, bmff_around, changed_file, drawn_file, jpeg_around, questions_in, verdict_files
from collect_rows import kind_of
from collected import History, carried_labels, clash_in, wrong_in
from definition import read as read_definition
from drafts import ALL_EXCLUDED, Assertion, BmffHash, DataHash, Ingredient, Manifest
from locate import Refused
from make_store import box, data
from manifests import INGREDIENT_LABELS
from media import media_of
from store import OUTPUT_FAULT, USAGE, report, verdicts_in
from tables import Approving
from told import tell, write
from vary import varied
from worked_builds import MESSAGE

FILES = "media", "definition", "signature", "other"
PLANNED = "media", "definition", "other"
OLDER = b"what was there before"
# How many pairs are drawn of a family.
PAIRS = 8
KNOWN = "sha256", "sha384", "sha512"


# Families


class Taken:
    """A manifest that is there already, as a draft: its bytes, or its contents behind a header of the other form."""

    def __init__(self, store, manifest, is_turned=False):
        self.label, self.assertions, self.store, self.manifest, self.is_turned = manifest.label, [], store, manifest, is_turned

    def write(self, written):
        whole, signature = self.manifest.box, self.manifest.signature
        contents = self.store[whole.inside : whole.end]
        written.manifests.setdefault(self.label, contents)
        if signature is not None:
            written.signatures.setdefault(self.label, self.store[signature.inside : signature.end])
        return box(b"jumb", contents, wide=(whole.inside - whole.start == 16) != self.is_turned)


class Leaf:
    """A box beside the manifests that is none."""

    label, assertions = None, ()

    def __init__(self, contents):
        self.contents = contents

    def write(self, _):
        return box(b"free", self.contents)


def family(chance):
    """Files of which many have manifests in common."""
    files = [first_file(chance) for _ in range(chance.choice((1, 1, 1, 2, 3)))]
    for _ in range(chance.choice((2, 4, 6, 8))):
        made = chance.choice((build_over, build_over, build_over, collect_into, collect_into, draft_around, draft_around, turn))(chance, files)
        if made is not None and len(made) < 40_000:
            files.append(made)
    return files


def first_file(chance):
    """A file with a store, or without one."""
    if chance.random() < 0.2:
        return chance.choice((fresh, film))(chance)
    return Drawn(chance, chance.random() < 0.4).file()


def drawn_signing(chance, *media, is_plain=True):
    """A definition over the manifests of files, and a message; plain ones aren't refused for themselves."""
    manifests = [each for contents in media for each in manifests_in(contents)]
    if is_plain:
        label = f"urn:c2pa:{chance.getrandbits(32):08x}-0000-4000-8000-{chance.getrandbits(48):012x}"
        notes = [new(each, "cbor", data(chance.randbytes(3))) for each in chance.sample(ORDINARY[:3], chance.choice((0, 1, 2)))]
        redactions = drawn_redactions(chance, manifests) if chance.random() < 0.4 else []
        return plain(label=label, alg=chance.choice(KNOWN), assertions=notes, redact=redactions), MESSAGE
    message, said = drawn_message(chance)
    return drawn_definition(chance, manifests, said), message


def file_of(made):
    return made[0] if isinstance(made[0], bytes) else None


def build_over(chance, files):
    media = chance.choice(files)
    return file_of(builder.embed(media, *drawn_signing(chance, media), [Approving()]))


def collect_into(chance, files):
    media, other = chance.choice(files), chance.choice(files)
    return file_of(collect.embed(media, *drawn_signing(chance, media, other), other, [Approving()]))


def store_of(contents):
    """A file's store, and its manifests; None where it has none that can be read."""
    try:
        media = media_of(contents)
        return (media.store, manifests_in(contents)) if media else None
    except Refused:
        return None


def draft_around(chance, files):
    """A file whose store has some manifests of another one, in any order that they may stand in, and a new active one that names some of them."""
    found = store_of(chance.choice(files))
    if not found or not found[1]:
        return None
    store, manifests = found
    chosen = in_some_order(chance, closed(chance, manifests))
    taken = [Taken(store, manifest, chance.random() < 0.04) for manifest in chosen]
    is_bmff = chance.random() < 0.35
    active = new_manifest(chance, [manifest.label for manifest in chosen], is_bmff)
    if chance.random() < 0.1:
        taken.insert(chance.randrange(len(taken) + 1), Leaf(chance.randbytes(3)))
    return (bmff_around if is_bmff else jpeg_around)(chance).file([*taken, active])


def closed(chance, manifests):
    """Some manifests, and all that they name."""
    by_label = {manifest.label: manifest for manifest in manifests}
    pending, found = [each.label for each in manifests if chance.random() < 0.6], set()
    while pending:
        label = pending.pop()
        if label not in found and label in by_label:
            found.add(label)
            pending += [given.names for given in by_label[label].ingredients if given.names is not None]
    return [manifest for manifest in manifests if manifest.label in found]


def in_some_order(chance, manifests):
    """The same in an order in which what is named stands before who names it, mostly."""
    left, placed = list(manifests), []
    if chance.random() < 0.5:
        return left
    while left:
        names = {each.label for each in left}
        free = [each for each in left if not names & {given.names for given in each.ingredients}] or left
        placed.append(chance.choice(free))
        left.remove(placed[-1])
    return placed


def new_manifest(chance, labels, is_bmff):
    """An active manifest that names some of these labels."""
    label = chance.choice(LABELS) if chance.random() < 0.3 else f"urn:c2pa:{chance.getrandbits(48):012x}"
    named = [each for each in labels if chance.random() < 0.7]
    ingredients = []
    for number, each in enumerate(named):
        version = chance.choice((1, 2, 3, 3, 3, 3, 3, 3))
        relationship = "parentOf" if number == 0 else chance.choice(("componentOf", "inputTo"))
        ingredient = Ingredient(each, relationship, chance.random() < 0.85, f"{INGREDIENT_LABELS[version]}__{number}")
        ingredient.algs = [chance.choice((None, *KNOWN)) for _ in range(2)]
        ingredients.append(ingredient)
    notes = [Assertion(name, data(chance.randbytes(3))) for name in chance.sample(ORDINARY, chance.choice((0, 1, 2)))]
    binding = BmffHash(ALL_EXCLUDED) if is_bmff else DataHash()
    draft = Manifest(label, *ingredients, *notes, binding, version=chance.choice((1, 2, 2)))
    draft.claim_alg, draft.signature = chance.choice((None, *KNOWN)), chance.randbytes(4)
    return draft


def turn(chance, files):
    """A file with the manifests of another one, of which one has its length in the other form of header."""
    found = store_of(chance.choice(files))
    if not found or len(found[1]) < 2:
        return None
    store, manifests = found
    turned = chance.randrange(len(manifests))
    drafts = [Taken(store, manifest, at == turned) for at, manifest in enumerate(manifests)]
    return jpeg_around(chance).file([*drafts, new_manifest(chance, [manifest.label for manifest in manifests], False)])


# Pairs


def drawn_file_of(chance, files):
    """A file of the family, often as it is."""
    contents = chance.choice(files)
    drawn = chance.random()
    if drawn < 0.84:
        return contents
    if drawn < 0.9:
        return changed_file(chance, contents)
    if drawn < 0.93:
        return varied(chance, contents)
    return drawn_file(chance, chance.random() < 0.4) if drawn < 0.97 else first_file(chance)


def drawn_pair(chance, files):
    """A media file, a definition, a message, and another file."""
    media, other = drawn_file_of(chance, files), drawn_file_of(chance, files)
    definition, message = drawn_signing(chance, media, other, is_plain=chance.random() < 0.7)
    return [media, definition, message, other]


def verdicts_for(chance, contents):
    """Verdict files on the questions of files, which approve them all more often than those of chance_stores.py."""
    asked = sorted({identity for each in contents for identity in questions_in(each)})
    if chance.random() < 0.5:
        return ["".join(f"{identity} approved\n" for identity in asked).encode()]
    return verdict_files(chance, asked)


# Beside c2


class Collects:
    """Runs of c2 beside collect.py, in a folder."""

    def __init__(self, program, folder):
        self.program, self.folder = program, folder
        self.answers, self.mixture, self.runs, self.differences = Counter(), Counter(), Counter(), 0
        # a program that doesn't know the commands isn't asked
        if program is not None and self.run("plan-collect", *PLANNED).returncode == USAGE:
            self.program = None

    def path(self, name):
        return os.path.join(self.folder, name)

    def run(self, command, *names):
        self.runs[command] += 1
        return subprocess.run([self.program, command, *map(self.path, names)], stdout=subprocess.PIPE, check=False)

    def put(self, name, contents):
        """Writes a file; nothing is there where there are no bytes."""
        if contents is not None:
            write(self.path(name), contents)
        elif os.path.exists(self.path(name)):
            os.remove(self.path(name))

    def contents(self, name):
        return external.contents_of(self.path(name)) if os.path.exists(self.path(name)) else None

    def compare(self, files, verdicts, older=None):
        """Runs both commands over files, of which one may not be there, while the new file is there already or isn't."""
        kept = {**dict(zip(FILES, files)), **{f"verdicts-{number}": rows for number, rows in enumerate(verdicts)}}
        for name, contents in kept.items():
            self.put(name, contents)
        judges = [None if rows is None else verdicts_in(rows) for rows in verdicts]
        judged = [name for name in kept if name.startswith("verdicts-")]
        planned, built = (collect.answer(command, [self.path(name) for name in names], judges) for command, names in (("plan-collect", PLANNED), ("embed-collect", FILES)))
        self.answers[kind_of(*built[:2])] += 1
        wrong = [] if None in files else list(self.wrong(files, built, planned))
        if self.program:
            wrong += self.differs("plan-collect", [*PLANNED, *judged], planned, None)
            wrong += self.differs("embed-collect", [*FILES, "out", *judged], built, older)
            wrong += self.followed(built[2]) if built[2] is not None and older is None and not wrong else ()
        self.tell(wrong, kept)

    def wrong(self, files, built, planned):
        """What collect.py says that isn't as collected.py and rules.py have it."""
        media, definition, _, other = files
        line, _, new = built
        if new is not None:
            start, length = map(int, line.split()[1:])
            redactions = read_definition(definition).redactions
            yield from wrong_in(media, other, (new, start, length), ("tbs", bytes.fromhex(planned[0].removeprefix("tbs "))), redactions)
            self.count(History(media), History(other), History(new), redactions)
        if new is not None or line.startswith(("build LabelClash", "build LabelTaken", "build RedactionRefused")):
            clash = clash_in(media, other)
            known = None if clash is None else f"build LabelClash {clash}"
            if known != (line if line.startswith("build LabelClash") else None):
                yield f"{line} is told of a clash at {clash}"

    def count(self, media, other, new, redactions):
        """How the stores of a new file are mixed."""
        shared = len(set(media.labels()) & set(other.reached))
        carried = len(carried_labels(media, other)) - len(media.labels())
        versions = {manifest.claim.version for manifest in new.manifests if manifest.claim}
        algorithms = {manifest.algorithm(None) for manifest in new.manifests}
        unreached = len(new.manifests) > len(new.reached), len(other.manifests) > len(other.reached)
        redacted = [label for label in redactions if any(f"/c2pa/{each}/" in label for each in set(other.reached) - set(media.labels()))]
        for holds, what in (
            (not media.manifests, "the media has no store"),
            (shared, "manifests are shared"),
            (shared > 1, "several manifests are shared"),
            (shared and carried, "some are shared and some carried"),
            (not carried, "none is carried"),
            (carried > 2, "three or more are carried"),
            (len(versions) > 1, "claims of both versions"),
            (len(algorithms) > 1, "several algorithms"),
            (redactions, "redactions"),
            (redacted, "redactions in what is carried"),
            (unreached[0], "manifests that aren't reached"),
            (unreached[1], "manifests of the other file that aren't reached"),
            (media.contents[:2] != other.contents[:2], "a JPEG and a film"),
        ):
            self.mixture[f"new files: {what}"] += bool(holds)

    def differs(self, command, names, known, older):
        """What c2 prints or writes otherwise. Where a file is there already a command that has to write it fails, and leaves it."""
        self.put("out", older)
        line, status, new = known
        if older is not None:
            line, status, new = ("", OUTPUT_FAULT, older) if new is not None else (line, status, older)
        done = self.run(command, *names)
        printed = (line + "\n").encode() if line else b""
        if (done.stdout, done.returncode) != (printed, status):
            yield f"{command} says {done.returncode} {done.stdout[:300]}, not {status} {printed[:300]}"
        if (written := self.contents("out")) != new:
            yield f"{command} writes another file of {written and len(written)} bytes"

    def followed(self, built):
        """What c2 says otherwise of the new file, under a judge who approves."""
        rows = "".join(f"{identity} approved\n" for identity in questions_in(built)).encode()
        self.put("approving", rows)
        self.put("built", built)
        for command in "validate", "questions":
            yield from self.differs(command, ("built", "approving"), (*report(command, built, [verdicts_in(rows)]), None), None)
        for command in external.WRITERS:
            yield from self.differs(command, ("built", "out"), external.answer(command, built), None)

    def tell(self, wrong, kept):
        if wrong:
            self.differences += 1
            for name, contents in kept.items():
                if contents is not None:
                    write(f"collect-{self.differences}.{name}", contents)
        for each in wrong:
            print(f"collect-{self.differences}: {each}", flush=True)


def draw(collects, count, seed):
    chance, files = random.Random(seed), []
    for number in range(count):
        if number % PAIRS == 0:
            files = family(chance)
        given = drawn_pair(chance, files)
        verdicts = verdicts_for(chance, (given[0], given[3]))
        if chance.random() < 0.02:
            given[chance.randrange(4)] = None
        collects.compare(given, verdicts, older=OLDER if chance.random() < 0.03 else None)


def main():
    program, count, *seed = sys.argv[1:]
    with tempfile.TemporaryDirectory() as folder:
        collects = Collects(None if program == "-" else os.path.abspath(program), folder)
        draw(collects, int(count), *map(int, seed or ["1"]))
    runs = ", ".join(f"{times} of {command}" for command, times in collects.runs.items()) if collects.program else "none"
    tell(collects.answers + collects.mixture, f"{count} pairs, runs: {runs}; {collects.differences} differences", collects.differences)


if __name__ == "__main__":
    main()
