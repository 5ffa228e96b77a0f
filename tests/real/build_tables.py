"""The tables of crates/c2_test_rows on `plan` and `embed`, with the rows of build_rows.py, for whole runs.

`builds` has what is built, and what `validate` says of it; `build_refusals` what is refused, and that nothing is written then.
"""

import hashlib

import tables
from built_films import film_in_front
from builder import NUMBERS, plan
from build_rows import (
    GROUPS, LONGER, MADE, RUNS, Computed, definition, definition_text, every_number, fewer_boxes, fewer_manifests, judges_of, largest_store,
    later, many_boxes, media_named, most_manifests, most_of_all, no_room, room, signed,
)
from locate import Refused
from make_store import jpeg
from media import media_of
from store import JUDGE_FAULT, JudgeFault, report
from tables import Approving, folded
from validate_rows import LINES, photograph_text, photographed
from worked_builds import DEFINITION, FILM, LATER, LATER_DEFINITION, MESSAGE, SMALL, changed

EMBED, PLAN = "embed J X G OUT", "plan J X"
EVERY_NUMBER = next(name for name, made in MADE.items() if made is every_number)
# Long media that a table can say by pieces: their stores, around which it makes a JPEG.
IN_PIECES = {name for name, made in MADE.items() if made in (most_manifests, fewer_manifests, room, no_room, most_of_all, largest_store)}
# Films of so many root boxes that a table says how many.
FILMS = {name for name, made in MADE.items() if made in (many_boxes, fewer_boxes)}
# A media or file that is longer is read in long pieces alone.
SMALL_ENOUGH = 20_000


class Lines:
    """The lines of a table: settings where they change, and a dot for a file that stood at its place before."""

    def __init__(self, what, writer="build_tables.py"):
        self.text, self.known, self.files = tables.head(what, writer), {}, {}

    def set(self, **given):
        more = {key.replace("_", " "): value for key, value in given.items() if self.known.get(key) != value}
        self.known |= given
        self.text += tables.settings(**more)

    def row(self, wanted, *files, what=None):
        shown = ["." if self.files.get(at) == file else file for at, file in enumerate(files)]
        self.files |= dict(enumerate(files))
        self.text += (f"# {what}\n" if what else "") + f"{' | '.join(shown)} => {wanted}\n"


def media_text(media):
    """The media of a row as a table has it, the size of a file of which it is the front, and the packets of a store that it is."""
    if media == EVERY_NUMBER:
        first, last = (contents.hex() for contents in (SMALL[:20], SMALL[20:]))
        return f"{first} {NUMBERS[0]}..{NUMBERS[-1]}*ffeb00124a50#000000010000000866726565 {last}", "none", ""
    if media in IN_PIECES:
        contents = media_of(media_named(media)).store
        assert jpeg(contents) == media_named(media)
        return in_pieces(contents), "none", "63984"
    if isinstance(media, bytes) or media in FILMS:
        return file_text(media_named(media)), "none", ""
    _, front, size = media.split(" ")
    return front, size, ""


def file_text(contents):
    return photograph_text(contents) if LINES in contents else folded(contents)


def in_pieces(contents):
    """A store in hex, in which manifests without anything are told by the two bytes of their labels."""
    words, at = [], contents.index(b"\3c2pa\0") + 6
    words.append(contents[:at].hex())
    for run in RUNS:
        first, length = run[0].to_bytes(2, "big"), int.from_bytes(contents[at : at + 4], "big")
        label = contents.find(first + b"\0", at, at + length)
        if label < 0:
            break
        front, back = contents[at:label], contents[label + 2 : at + length]
        count = next((count for count, number in enumerate(run) if not contents.startswith(front + number.to_bytes(2, "big") + back, at + count * length)), len(run))
        words.append(f"{run[0]}..{run[count - 1]}*{front.hex()}#{back.hex()}")
        at += count * length
    return " ".join([*words, folded(contents[at:])])


def has_store(media):
    """Whether a media has a store that isn't refused by the tests of the container."""
    contents = media_named(media)
    try:
        return isinstance(contents, bytes) and media_of(contents) is not None
    except Refused:
        return False


def is_left_out(media):
    """Whether a media is too long for a table."""
    return not isinstance(media, bytes) and media in MADE and media != EVERY_NUMBER and media not in IN_PIECES | FILMS


def answer(each):
    """Status and line of a row of build_rows.py for `embed` and for `plan`."""
    return each.embedded[:2], each.planned[:2]


def chosen(is_built):
    """The rows, those that build a file or the others."""
    for group in GROUPS:
        for each in group():
            if is_left_out(each[1]):
                continue
            each = Computed(*each)
            answers = answer(each)
            if (answers[0][1].startswith("embedded")) == is_built:
                yield each, *answers


def new_file(contents):
    return f", out {len(contents)} {hashlib.sha256(contents).hexdigest()}"


def put(lines, each, embedded, planned):
    """Appends a row for `embed`, and one for `plan` where it is of other files or judges than the row before."""
    media, size, packed = media_text(each.media)
    files = media, definition_text(each.given), folded(each.signature)
    longest = max(len(each.given), len(each.signature), len(media_named(each.media)) if size == "none" else 0)
    is_photograph = isinstance(each.media, bytes) and LINES in each.media
    lines.set(pieces="1 7 65536" if longest < SMALL_ENOUGH or is_photograph else "65536", size=size, packets=packed)
    names = [] if each.judge == "none" or (each.judge == "approved" and not has_store(each.media)) else each.judge.split(" ")
    contents = each.embedded[2] if embedded[1].startswith("embedded") else None
    if contents:
        lines.set(out=max(2_000, len(contents)))
    judges = " ".join(names)
    is_planned = (*files[:2], judges) == (*(lines.files.get(at) for at in range(2)), lines.known.get("judges"))
    lines.set(judges=judges, words=EMBED + " V" * len(names))
    lines.row(told(embedded, each.embedded[3] if names else []) + (new_file(contents) if contents else ""), *files, what=each.what)
    if is_planned:
        return
    lines.set(words=PLAN + " V" * len(names), room=max(1_000, len(planned[1]) + 1))
    lines.row(told(planned, each.planned[3] if names else []), *files[:2])


def told(answer, asked):
    """What a run comes to by its status and line, and by how often each judge was asked."""
    status, line = answer
    text = f"{status} {line}" if status != JUDGE_FAULT else f"{status} nothing, not finished"
    return text + (f", asked {' '.join(map(str, asked))}" if asked else "")


def builds():
    lines = Lines("What `plan` says and `embed` builds of media files.")
    worked = None
    for each, *answers in chosen(True):
        worked = worked or each.embedded[2]
        put(lines, each, *answers)
    accepted(lines, worked)
    succeeded(lines, worked)
    by_algorithms(lines)
    over_others(lines)
    return lines.text


def accepted(lines, built):
    """What `validate` says of a new file, and of the file with a byte changed."""
    asset, actions = changed(built, 19), changed(built, built.index(b"actions\x81"))
    lines.set(pieces="1 7 65536", room=1_000, out="none", size="none", packets="")
    for what, contents, judges in (
        ("a new file is accepted", built, "approved"),
        ("a new file without judges", built, ""),
        ("a new file with another byte in its APP0 segment", asset, "approved"),
        ("a new file with another byte in its actions", actions, "approved"),
    ):
        judge = [Approving()] if judges else []
        line, status = report("validate", contents, judge)
        lines.set(judges=judges, words="validate P V" if judges else "validate P")
        lines.row(f"{status} {line}" + (f", asked {judge[0].asked}" if judges else ""), contents.hex(), what=what)


def succeeded(lines, first):
    """What `validate` says of a file that is built over a file which was built, and of it with a byte changed in what is carried."""
    second = Computed("", first, LATER_DEFINITION, MESSAGE, "approved", None).embedded[2]
    carried = changed(second, second.index(b"actions\x81"))
    for what, contents, judges in (
        ("a file that is built over a new file is accepted", second, "approved"),
        ("it without judges", second, ""),
        ("it with the first of two judges silent", second, "silent approved"),
        ("it with a judge who fails at the older question", second, "approved@2"),
        ("it with another byte in its older actions", carried, "approved"),
    ):
        named = judges_of(judges or "none")
        status, line = validated(contents, named)
        lines.set(judges=judges, words="validate P" + " V" * len(named))
        lines.row(told((status, line), [judge.asked for judge in named]), contents.hex(), what=what)


def by_algorithms(lines):
    """What `validate` says of files that are built by each algorithm, alone and over one by another algorithm."""
    for alg in LONGER:
        for what, media in (("a JPEG", SMALL), ("a film", FILM)):
            accepted_by(lines, f"{what} by {alg}", Computed("", media, definition(alg=alg), MESSAGE, "approved", None).embedded[2])
    for below, above in ("sha512", "sha256"), ("sha256", "sha512"):
        built = Computed("", signed(alg=below), later(alg=above), MESSAGE, "approved", None).embedded[2]
        accepted_by(lines, f"a JPEG by {above} over {below}", built)


def accepted_by(lines, what, contents):
    status, line = validated(contents, judges := judges_of("approved"))
    lines.set(judges="approved", words="validate P V")
    lines.row(told((status, line), [judge.asked for judge in judges]), contents.hex(), what=f"{what} is accepted")


def over_others(lines):
    """What is built over a film whose store stands between two boxes, and over a photograph with a store that others wrote."""
    photograph, _ = photographed([None])
    for what, media in (("a photograph of 3,145,728 bytes beside its store", photograph), ("a film with its store between two boxes", film_in_front())):
        built = Computed(what, media, LATER_DEFINITION, MESSAGE, "approved", None)
        put(lines, built, *answer(built))
        status, line = validated(built.embedded[2], judges := judges_of("approved"))
        lines.set(words="validate P V", out="none", room=1_000)
        lines.row(told((status, line), [judge.asked for judge in judges]), file_text(built.embedded[2]), what=f"what is built over {what} is accepted")


def validated(contents, judges):
    try:
        line, status = report("validate", contents, judges)
    except JudgeFault:
        return JUDGE_FAULT, ""
    return status, line


def refusals():
    """No row has a new file, so that its first call would fail."""
    lines = Lines("What `plan` and `embed` refuse, where nothing is written.")
    for each, *answers in chosen(False):
        put(lines, each, *answers)
    unread(lines)
    return lines.text


def unread(lines):
    """What isn't due isn't read: its first call would fail."""
    lines.set(judges="", size="none", pieces="7", room=1_000, packets="")
    for words, fault, media, given, what in (
        (EMBED, "second", b"", DEFINITION, "no media: the definition isn't read"),
        (EMBED, "third", b"", DEFINITION, "no media: the message isn't read"),
        (EMBED, "third", SMALL, b"{}", "no definition: the message isn't read"),
        (PLAN, "second", b"", DEFINITION, "no media: the definition isn't read"),
    ):
        built = Computed("", media, given, MESSAGE, "approved", None)
        status, line = (built.embedded if words == EMBED else built.planned)[:2]
        files = media.hex(), definition_text(given), folded(MESSAGE)
        lines.set(words=words, fault=f"{fault} 1")
        lines.row(f"{status} {line}", *files[: len(words.split()) - (2 if words == EMBED else 1)], what=f"{words.split()[0]} of {what}")
