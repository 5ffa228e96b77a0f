"""The builds of vectors/: media, definitions, messages and judges under `plan` and `embed`, a choice from build_rows.py."""

from collections import namedtuple

import build_rows
from build_rows import MADE, RUNS, Vast, every_number
from builder import NUMBERS, embed
from drafts import ALL_EXCLUDED, Assertion, Bmff, BmffHash, Manifest, Written
from media import media_of
from tables import Approving
from worked_builds import FILM, LATER_DEFINITION, MESSAGE, SMALL

Build = namedtuple("Build", "what media definition message judges known")

# What is refused of a media file (docs/FORMATS.md), but for what no file can show, and of a build (docs/RULES.md).
REASONS = set(
    "NotMedia FileTooLarge Truncated BadMarker BadSegment BadPacket TwoStores BadBox BadProvenanceBox StoreTooLarge TooManyBoxes BadHead "
    "Overrun NoDescription BadDescription DuplicateLabel TooDeep NotStore ManifestType ManifestLabel NoManifest TooMany".split()
)
REFUSALS = """MediaRefused NotMedia|MediaRefused FileTooLarge|BadDefinition size|BadDefinition json|BadDefinition other
BadDefinition label|BadDefinition instance_id|BadDefinition generator|BadDefinition title|BadDefinition protected|BadDefinition reserve
BadDefinition assertions|BadDefinition redact|BadDefinition alg|BadSignature size|BadSignature form|BadSignature plain|BadSignature protected|BadSignature entries
BadSignature pad|ParentFails|LabelTaken|RedactionRefused|OpenBox|NoInstance|TooManyManifests|StoreTooLarge|ReserveTooSmall""".replace("\n", "|").split("|")
JUDGES = {
    "approved": "verdicts/approving",
    "silent": "verdicts/empty",
    "broken": "verdicts/no-verdict-file",
    **{word: f"verdicts/all-{word}" for word in ("mismatch", "untrusted", "invalid")},
}
# Groups of rows that are taken whole; of the others the first of each answer.
WHOLE = (
    build_rows.jpeg_rows,
    build_rows.message_rows,
    build_rows.definition_rows,
    build_rows.parent_rows,
    build_rows.redaction_rows,
    build_rows.film_rows,
    build_rows.algorithm_rows,
    build_rows.media_refusals,
    build_rows.signature_refusals,
    build_rows.parent_refusals,
    build_rows.redaction_refusals,
    build_rows.place_refusals,
    build_rows.order_rows,
)
# These take a reader in Python long, or are long, and show what others show too.
LEFT_OUT = {
    "a root box more than there may be",
    "root boxes before the reserve",
    "redactions before numbers",
    "numbers before the reserve",
    "the most that may be protected",
    "a long definition",
    "a JPEG that has ftyp at byte 4",
    "a tenth store",
    *(f"a reserve of {number}" for number in range(65_000, 66_000)),
}
LARGEST = 33_554_432


def rows():
    """The builds, each of another name."""
    seen = set()
    for group in build_rows.GROUPS:
        answers = set()
        for what, media, definition, message, judge, known in group():
            contents = None if what in LEFT_OUT else media_as_pieces(media)
            answer = str(known).split(" ")[:3]
            if contents is None or "@" in judge or (group not in WHOLE and tuple(answer) in answers):
                continue
            answers.add(tuple(answer))
            judges = [] if judge == "none" else [JUDGES[word] for word in judge.split(" ")]
            number, name = 1, what
            while name in seen:
                number += 1
                name = f"{what} {number}"
            seen.add(name)
            yield Build(name, contents, definition, message, judges, known)
    yield too_large()
    pieces, contents = many_manifests()
    assert whole(pieces) == contents
    known = "build TooManyManifests 1025"
    yield Build("a manifest more than there may be", pieces, LATER_DEFINITION, MESSAGE, [JUDGES["approved"]], known)


def media_as_pieces(media):
    """The bytes of a row's media, its pieces, or nothing where neither is short."""
    if isinstance(media, bytes):
        return media
    if media.startswith("vast "):
        _, front, size = media.split(" ")
        return [(bytes.fromhex(front), 1), int(size)]
    if MADE[media] is every_number:
        packet = bytes.fromhex("ffeb00124a50") + b"##" + bytes.fromhex("000000010000000866726565")
        return [(SMALL[:20], 1), (packet, NUMBERS), (SMALL[20:], 1)]
    return build_rows.media_named(media) if MADE[media] is build_rows.shortest else None


def many_manifests():
    """A film whose store has 1,024 manifests, by pieces: they differ in the two characters of their labels."""
    contents = Bmff(FILM, b"").file([*build_rows.empties(1_023), Manifest("m", BmffHash(ALL_EXCLUDED))])
    one = Manifest("##").write(Written())
    at = contents.index(one.replace(b"##", RUNS[0][0].to_bytes(2, "big")))
    pieces, left = [(contents[:at], 1)], 1_023
    for run in RUNS:
        pieces.append((one, run[:left]))
        left -= len(run[:left])
    pieces = [piece for piece in pieces if piece[1]]
    assert left == 0
    return [*pieces, (contents[at + 1_023 * len(one) :], 1)], contents


def filled(count):
    """A film whose store has a note of so many zeros."""
    return Bmff(FILM, b"").file([Manifest("m", Assertion("test.note", bytes(count), b"bidb"), BmffHash(ALL_EXCLUDED))])


def largest():
    """A film with the longest store that there may be, and by how many bytes a build makes one longer, as it does a small one."""
    small = filled(0)
    size = len(media_of(small).store)
    return filled(LARGEST - size), lambda made: len(media_of(made(small)).store) - size


def too_large():
    """A film whose store has room for no manifest more."""
    media, more = largest()
    known = f"build StoreTooLarge {LARGEST + more(lambda small: embed(small, LATER_DEFINITION, MESSAGE, [Approving()])[0])}"
    return Build("a store of more bytes than there may be", media, LATER_DEFINITION, MESSAGE, [JUDGES["approved"]], known)


def whole(contents):
    """The bytes of a file that is told by pieces; of one that no memory holds an object that has its length."""
    if isinstance(contents, bytes):
        return contents
    if isinstance(contents[-1], int):
        return Vast(contents[0][0], contents[-1])
    return b"".join(
        b"".join(piece.replace(b"##", number.to_bytes(2, "big")) for number in times) if isinstance(times, range) else piece * times
        for piece, times in contents
    )
