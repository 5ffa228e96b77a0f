#!/usr/bin/env python3
"""What `c2 compare` must print of two media files, computed apart from c2, and the status it must exit with.

    pairs.py [--weak] FIRST SECOND [VERDICTFILE..]

With --weak boxes and covered texts are bound by the sum of hashing.py in place of SHA-256. The lists of evidence are made as the
definition has it: all pairs in their order, of which the first whose lists differ is told.
"""

import sys

import hashing
import jumbf
import store
from manifests import INGREDIENT, item_of, kind_of
from media import Binding, media_of
from rules import CheckList, assertion_uri, uri
from store import printable

DIFFERENT_CLAIMS, EVIDENCE, NOT_ACCEPTED = 9, 10, 12


class Accepted:
    """A file in which every rule holds."""

    def __init__(self, data, judges):
        self.media = media_of(data)
        self.rules = CheckList(self.media.store, jumbf.read(self.media.store), lambda identity: store.verdict_of(judges, identity))
        assert list(self.rules.failing(self.media)) == []
        self.manifests, self.active = self.rules.manifests, self.rules.active

    def contents(self, box):
        return self.media.store[box.inside : box.end]

    def kept(self, at):
        """The entries of a manifest whose labels aren't redacted."""
        return [entry for entry in self.manifests[at].entries if entry.label not in self.rules.redacted[at]]

    def chain_content(self):
        """Claims and assertions of the reached manifests by their labels; the active one stands under none."""
        content = {}
        for at in self.rules.reached:
            manifest = self.manifests[at]
            boxes = {entry.label: self.contents(manifest.labelled[entry.label]) for entry in self.kept(at)}
            content[None if at == self.active else manifest.label] = manifest.claim.encoded, boxes
        return content

    def binding(self):
        label = self.rules.binding_label()
        item = item_of(self.media.store, self.manifests[self.active].labelled[label])
        return Binding(kind_of(label), item, self.media)

    def covered(self):
        return b"".join(map(bytes, self.binding().covered(self.media)[0]))

    def twin(self, other, at):
        """The manifest of another file that corresponds to one of this file, or None."""
        if at == self.active:
            return other.manifests[other.active]
        place = other.rules.places.get(self.manifests[at].label)
        return None if place is None else other.manifests[place]


def box_named(accepted, manifest, label):
    """The contents of an assertion box; nothing where there is none."""
    box = manifest.labelled.get(label)
    return b"" if box is None else accepted.contents(box)


def digest_line(alg, place):
    return [f"evidence digest {alg} {printable(place)}"]


def differences(first, second):
    """The lines before two lists, and these, in the order of the definition."""
    for at in first.rules.reached:
        mine, theirs = first.manifests[at], first.twin(second, at)
        for entry in mine.entries if theirs else ():
            if entry.label is not None and kind_of(entry.label) == INGREDIENT:
                yield from ingredient_pairs(first, second, mine, theirs, entry)
    for at in first.rules.reached:
        mine, theirs = first.manifests[at], first.twin(second, at)
        for entry in first.kept(at) if theirs else ():
            yield box_pair(first, second, mine, theirs, entry)
    binding = first.binding()
    algorithm = first.manifests[first.active].algorithm(binding.alg)
    yield digest_line(algorithm, "covered"), first.covered(), second.covered()


def box_pair(first, second, mine, theirs, entry):
    lists = box_named(first, mine, entry.label), box_named(second, theirs, entry.label)
    return digest_line(mine.algorithm(entry.reference.alg), assertion_uri(mine, entry.label)), *lists


def ingredient_pairs(first, second, mine, theirs, entry):
    yield box_pair(first, second, mine, theirs, entry)
    given = next(it for it in mine.ingredients if it.box.label == entry.label)
    if given.names is None:
        return
    child, other = (it.manifests[it.rules.places[given.names]] if given.names in it.rules.places else None for it in (first, second))
    if given.signature is None:
        contents = first.contents(child.box), second.contents(other.box) if other else b""
        yield digest_line(mine.algorithm(given.manifest.alg), uri(child.label)), *contents
        return
    place = uri(child.label, "c2pa.signature")
    boxes = first.contents(child.signature), second.contents(other.signature) if other and other.signature else b""
    yield digest_line(mine.algorithm(given.signature.alg), place), *boxes
    lines = [f"evidence signature {printable(place)}", boxes[0].hex()]
    yield lines, child.claim.encoded, other.claim.encoded if other and other.claim else b""


def compared(first, second, judges=()):
    """The report of two files' bytes, and the status."""
    for side, data in ("first", first), ("second", second):
        line, _ = store.report("validate", data, judges)
        if not line.startswith("valid "):
            return f"not accepted {side} {line}", NOT_ACCEPTED
    left, right = Accepted(first, judges), Accepted(second, judges)
    if left.manifests[left.active].claim.encoded != right.manifests[right.active].claim.encoded:
        return "different claims", DIFFERENT_CLAIMS
    if left.chain_content() == right.chain_content() and left.covered() == right.covered():
        return "same manifests={} assertions={} covered={}".format(*left.rules.summary()), store.DONE
    lines, mine, theirs = next(it for it in differences(left, right) if it[1] != it[2])
    return "\n".join([*lines, mine.hex(), theirs.hex()]), EVIDENCE


def answer(first, second, *verdict_files):
    """The bytes that must be printed of two named files, and the status."""
    judges = [store.read_verdicts(name) for name in verdict_files]
    try:
        with open(first, "rb") as one:
            left = one.read()
        with open(second, "rb") as other:
            right = other.read()
        text, status = compared(left, right, judges)
    except OSError:
        return b"", store.INPUT_FAULT
    except store.JudgeFault:
        return b"", store.JUDGE_FAULT
    return text.encode("utf-8") + b"\n", status


def main():
    words = sys.argv[1:]
    if words[0] == "--weak":
        hashing.choose("weak")
        words = words[1:]
    printed, status = answer(*words)
    sys.stdout.buffer.write(printed)
    sys.stdout.buffer.flush()
    sys.exit(status)


if __name__ == "__main__":
    main()
