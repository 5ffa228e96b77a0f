#!/usr/bin/env python3
"""What `c2 plan-collect` and `c2 embed-collect` must print and write, computed apart from c2, and the status they must exit with.

    collect.py plan-collect MEDIA DEFINITION OTHER [VERDICTFILE..]                  the bytes to be signed
    collect.py embed-collect MEDIA DEFINITION SIGNATURE OTHER OUT [VERDICTFILE..]   writes the new file, into which the history of OTHER comes

The older boxes of the new store are made as one list of bytes, and read again as one store: which manifests are reached in it, and what may be
redacted, is asked of that. Media, definition, message, claim and layout are those of builder.py, the check of OTHER is that of rules.py. Nothing here was
taken from c2's own code.
"""

import os
import sys
from functools import partial

import jumbf
from builder import MOST_JUDGES, PARENT, Build, BuildRefused, Older, OldStore, built, carry, contents_of, line_of, planned, read_media
from locate import Refused
from make_store import store
from media import media_of
from rules import Chain
from store import INPUT_FAULT, JUDGE_FAULT, OUTPUT_FAULT, USAGE, JudgeFault, end_with, read_verdicts, validated

COMPONENT = "componentOf"
# How many files a command names before its judges.
NAMES = {"plan-collect": 3, "embed-collect": 5}


def plan(media, definition, other, judges=()):
    """What is planned of bytes, as builder.py has it."""
    return planned(lambda: read_media(media, judges), lambda: definition, build=collecting(lambda: other, judges))


def embed(media, definition, signature, other, judges=()):
    """What is built of bytes, as builder.py has it."""
    return built(lambda: read_media(media, judges), lambda: definition, lambda: signature, build=collecting(lambda: other, judges))


def collecting(other, judges):
    """A build with a call that gives the bytes of OTHER, where they are due."""
    return partial(Collecting, lambda: read_other(other(), judges))


class Collecting(Build):
    """A file that is built with the manifests of another one, whose store a call gives where it is due: once all that is asked of the media is."""

    def __init__(self, other, *calls):
        self.other = other
        super().__init__(*calls)

    def carry(self, old):
        named = []
        if old is not None:
            old.check()
            named.append((PARENT, len(old.manifests) - 1))
        other = self.other()
        joined = joined_of(old, other)
        named.append((COMPONENT, joined.chain.places[other.manifests[-1].label]))
        return carry(joined, self.definition, *named)


def read_other(contents, judges):
    """The store of an accepted file, or a refusal with the line that `validate` prints of it."""
    try:
        media = media_of(contents)
        if media is None:
            raise BuildRefused("OtherRefused", "none")
        other = OldStore(media, judges)
    except Refused as refused:
        raise BuildRefused("OtherRefused", f"refused {refused.reason} {refused.number}") from None
    line, _ = validated(other.chain, media)
    if not line.startswith("valid "):
        raise BuildRefused("OtherRefused", line)
    return other


def joined_of(old, other):
    """The boxes of an old store, which may be None, and behind them the reached manifests of another one that it hasn't, as one store."""
    ours = {} if old is None else {manifest.label: (at in old.chain.reached, whole(old, manifest.box)) for at, manifest in enumerate(old.manifests)}
    theirs = [manifest for at, manifest in enumerate(other.manifests) if at in other.chain.reached]
    for manifest in theirs:
        if ours.get(manifest.label, (True, whole(other, manifest.box))) != (True, whole(other, manifest.box)):
            raise BuildRefused("LabelClash", manifest.label)
    kept = [] if old is None else [whole(old, box) for box in old.root.children[1:]]
    contents = store(*kept, *(whole(other, manifest.box) for manifest in theirs if manifest.label not in ours))
    root = jumbf.read(contents)
    places = {box.label: at for at, box in enumerate(root.superboxes())}
    roots = {places[each.manifests[-1].label] for each in (old, other) if each is not None}
    return Older(contents, root, Chain(contents, root.superboxes(), roots))


def whole(older, box):
    return older.store[box.start : box.end]


# Files


def answer(command, names, judges):
    """The line that words must print, the status, and the new file or None. A file that isn't due needn't be there."""
    media, *more, other = (partial(contents_of, name) for name in names)
    call = planned if command == "plan-collect" else built
    try:
        told = call(lambda: read_media(media(), judges), *more, build=collecting(other, judges))
    except OSError:
        return "", INPUT_FAULT, None
    except JudgeFault:
        return "", JUDGE_FAULT, None
    return *line_of(told), told[0] if isinstance(told[0], bytes) else None


def told(command="", *names):
    """The bytes that words must print (none of a usage line), and the status; a new file is written."""
    count = NAMES.get(command, 0)
    if not 0 < count <= len(names) <= count + MOST_JUDGES or any(name == "" or name.startswith("-") for name in names):
        return b"", USAGE
    files, judges = names[:count], [read_verdicts(name) for name in names[count:]]
    line, status, new = answer(command, files[: 3 if command == "plan-collect" else 4], judges)
    if new is not None:
        if os.path.lexists(files[4]):
            return b"", OUTPUT_FAULT
        with open(files[4], "xb") as file:
            file.write(new)
    return line.encode() + b"\n" if line else b"", status


if __name__ == "__main__":
    end_with(*told(*sys.argv[1:]))
