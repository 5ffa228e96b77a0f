"""The builds of vectors/ into which another file is collected: media, definitions, messages, other files and judges under `plan-collect` and
`embed-collect`, the rows of collect_rows.py, whose answers are written by hand."""

from collections import namedtuple

import collect_rows
from build_rows import MADE, every_number
from vector_builds import JUDGES, LARGEST, largest, many_manifests, media_as_pieces
from worked_builds import LATER_DEFINITION, MESSAGE

Collect = namedtuple("Collect", "what media definition message other judges known")

# What is refused of such a build alone (docs/RULES.md).
REFUSALS = "OtherRefused", "LabelClash"
# These show what others show too, over a long media.
LEFT_OUT = {"redactions before numbers", "numbers before the reserve"}
EVERY_NUMBER = next(name for name, made in MADE.items() if made is every_number)


def rows():
    """The builds, each of another name; those in which a judge fails at one of several questions are left out, as no verdict file does."""
    for each in collect_rows.rows():
        if each.what in LEFT_OUT or "@" in each.judge:
            continue
        media = media_as_pieces(EVERY_NUMBER) if each.media == every_number() else each.media
        judges = [] if each.judge == "none" else [JUDGES[word] for word in each.judge.split(" ")]
        yield Collect(each.what, media, each.definition, each.message, each.other, judges, each.known)
    yield from long_rows()


def long_rows():
    """A film with as many manifests as there may be, and one with as long a store."""
    plain = lambda what, media, known: Collect(what, media, LATER_DEFINITION, MESSAGE, collect_rows.FIRST, [JUDGES["approved"]], known)
    many, _ = many_manifests()
    yield plain("two manifests more than there may be", many, "build TooManyManifests 1026")
    media, more = largest()
    yield plain("a store of more bytes than there may be", media, f"build StoreTooLarge {LARGEST + more(collect_rows.made)}")
