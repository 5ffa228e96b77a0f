"""The table `collects` of crates/c2_test_rows: what `plan-collect` says and `embed-collect` builds of media, definitions, messages and other files, and what
other commands say of what is built. The answers of `embed-collect` and the order of manifests are written by hand in collect_rows.py; all else is computed
by collect.py, and by store.py and external.py. rows.py writes the table and checks it.
"""

import collect
import collect_rows
import external
from build_rows import definition_text, every_number, fewer_manifests, later, most_manifests, redactable, redacting, signed, target
from build_tables import EVERY_NUMBER, SMALL_ENOUGH, Lines, file_text, in_pieces, media_text, new_file, told
from builder import line_of
from collect_rows import FIRST, Computed, made, named
from media import media_of
from sidecar_tables import said_of, shown
from store import report
from tables import Approving, folded
from worked_builds import FILM, LABEL, LATER, LATER_DEFINITION, MESSAGE, SMALL, changed

EMBED, PLAN = "embed-collect J X G O OUT", "plan-collect J X O"
# The rows whose files are too long for the table.
LEFT_OUT = "as many as there may be, of which all but one are in both", "an open box before manifests"
# The first digits of what is to be signed of the first row, and how many there are.
SIGNED, DIGITS = "846a5369676e61747572653143a10126405901bb", 926


# What is built or refused


def computed():
    """The rows of collect_rows.py, of which none differs from what is written by hand there."""
    for each in (*collect_rows.rows(), *collect_rows.size_rows()):
        if each.what in LEFT_OUT:
            continue
        each = Computed(each)
        assert not [*each.differences()], each.row.what
        yield each


def every_build(lines):
    for each in computed():
        put(lines, each)
    text, status = line_of(collect.plan(SMALL, LATER_DEFINITION, FIRST, [Approving()]))
    assert (len(text), text[: 4 + len(SIGNED)], status) == (4 + DIGITS, f"tbs {SIGNED}", 0), text


def shown_media(media):
    """A media as the table has it, and the packets of the store that it is."""
    if media == every_number():
        return media_text(EVERY_NUMBER)[0], ""
    if media in (fewer_manifests(), most_manifests()):
        return in_pieces(media_of(media).store), "63984"
    return file_text(media), ""


def put(lines, each):
    """Appends a row for `embed-collect`, and one for `plan-collect` where it is of other files or judges than the row before. A plan has no third file."""
    row = each.row
    media, packed = shown_media(row.media)
    files = media, definition_text(row.definition), folded(row.message), folded(row.other)
    judges = "" if row.judge == "none" else row.judge
    inputs = [files[at] for at in (0, 1, 3)] + [judges]
    is_planned = inputs == [*(lines.files.get(at) for at in (0, 1, 3)), lines.known.get("judges")]
    is_long = max(map(len, (row.media, row.definition, row.other))) > SMALL_ENOUGH
    lines.set(judges=judges, packets=packed, pieces="65536" if is_long else "1 7 65536", room=max(1_000, len(each.planned[1]) + 1))
    for words, (status, line, new, asked), fault in (EMBED, each.embedded, "third 0"), (PLAN, each.planned, "third 1"):
        if words == PLAN and is_planned:
            continue
        lines.set(words=words + " V" * len(judges.split()), fault=fault, out="none" if new is None else len(new))
        wanted = told((status, line), asked if judges else []) + ("" if new is None else new_file(new))
        lines.row(wanted, *files, what=f"{words.split()[0]}: {row.what}")


# What is said of what is built


def accepted(lines):
    """What other commands say of the new files of the first two rows, and of one in which something is redacted."""
    into_none, into_itself = made(), made(FIRST)
    redacted = made(other=redactable(), given=redacting(target("m", "test.note"), target("d", "test.other")))
    lines.set(fault="third 0", words="validate P V", judges="approved", packets="", pieces="1 7 65536", room=1_000, out="none")
    mismatch = f"failing assertion.dataHash.mismatch {target(LATER, 'c2pa.hash.data')}"
    below = f"failing ingredient.manifest.mismatch {target(LATER, 'c2pa.ingredient.v3')}"
    for what, contents, known in (
        ("a new file is accepted", into_none, "valid manifests=2 assertions=5 covered=22 outside=0"),
        ("a picture with itself is accepted", into_itself, "valid manifests=2 assertions=6 covered=22 outside=0"),
        ("a new file in which was redacted is accepted", redacted, "valid manifests=3 assertions=7 covered=22 outside=0"),
        ("a new file with another byte in its media", changed(into_none, 19), mismatch),
        ("a new file with another byte in what is carried", changed(into_none, into_none.index(b"actions\x81")), below),
    ):
        judge = Approving()
        line, status = report("validate", contents, [judge])
        assert line == known, (what, line)
        lines.row(told((status, line), [judge.asked]), contents.hex(), what=what)
    unapproved(lines, into_none)
    taken(lines, into_none)


def unapproved(lines, contents):
    """A new file without judges, and with one who fails at the older question."""
    lines.set(words="validate P", judges="")
    line, status = report("validate", contents)
    assert line == f"failing profile.verdict.missing self#jumbf=/c2pa/{LATER}/c2pa.signature", line
    lines.row(told((status, line), []), contents.hex(), what="a new file without judges")
    lines.set(words="questions P V", judges="approved", room=2_000)
    judge = Approving()
    line, status = report("questions", contents, [judge])
    labels = [each.split()[1] for each in line.split("\n")]
    assert labels == [LATER, LABEL], labels
    lines.row(told((status, line.replace("\n", " / ")), [judge.asked]), contents.hex(), what="the questions of a new file")
    lines.set(judges="", room=1_000)


def taken(lines, contents):
    """What `strip` leaves of a new file, and `extract` writes."""
    for command, known in ("strip", "stripped 20 2670"), ("extract", "extracted 2658"):
        line, status, new = external.answer(command, contents)
        assert line == known and (command != "strip" or new == SMALL), (command, line)
        lines.set(words=f"{command} J OUT", out=len(new))
        lines.row(told((status, line), []) + new_file(new), contents.hex(), what=f"{command} of a new file")


# What isn't read, and a new file that is full


def not_due(lines):
    """What isn't due isn't read: its first call would fail."""
    third = signed(label=named(3))
    mismatch = f"build ParentFails assertion.dataHash.mismatch {target(LABEL, 'c2pa.hash.data')}"
    no_media, no_definition, no_message = "build MediaRefused NotMedia 0", "build BadDefinition label", "build BadSignature form"
    lines.set(judges="approved", pieces="7", out="none", room=1_000)
    names = {"second": "the definition", "third": "the message", "fourth": "the other file"}
    for command, fault, media, given, signature, other, known in (
        (PLAN, "second", b"", LATER_DEFINITION, MESSAGE, FIRST, no_media),
        (PLAN, "fourth", b"", LATER_DEFINITION, MESSAGE, FIRST, no_media),
        (PLAN, "fourth", SMALL, b"{}", MESSAGE, FIRST, no_definition),
        (PLAN, "fourth", changed(FIRST, 19), LATER_DEFINITION, MESSAGE, third, mismatch),
        (EMBED, "second", b"", LATER_DEFINITION, MESSAGE, FIRST, no_media),
        (EMBED, "third", b"", LATER_DEFINITION, MESSAGE, FIRST, no_media),
        (EMBED, "fourth", b"", LATER_DEFINITION, MESSAGE, FIRST, no_media),
        (EMBED, "third", SMALL, b"{}", MESSAGE, FIRST, no_definition),
        (EMBED, "fourth", SMALL, b"{}", MESSAGE, FIRST, no_definition),
        (EMBED, "fourth", SMALL, LATER_DEFINITION, b"", FIRST, no_message),
        (EMBED, "fourth", changed(FIRST, 19), LATER_DEFINITION, MESSAGE, third, mismatch),
    ):
        judge = Approving()
        call, files = (collect.plan, (media, given, other)) if command == PLAN else (collect.embed, (media, given, signature, other))
        line, status = line_of(call(*files, [judge]))
        assert line == known, (line, known)
        lines.set(words=f"{command} V", fault=f"{fault} 1")
        shown_files = media.hex(), definition_text(given), folded(signature), folded(other)
        lines.row(told((status, line), [judge.asked]), *shown_files, what=f"{command.split()[0]}, {' '.join(known.split()[1:3])}: {names[fault]} isn't read")
    lines.set(fault="third 0")


def full(lines):
    """A new file that takes one byte less than there is to be written."""
    contents = made()
    lines.set(words=f"{EMBED} V", pieces="1 7 65536", out=len(contents) - 1)
    files = SMALL.hex(), definition_text(LATER_DEFINITION), folded(MESSAGE), folded(FIRST)
    wanted = f"6 nothing, not finished, asked 1{new_file(contents[:-1])}, not finished"
    lines.row(wanted, *files, what="embed-collect into a new file that takes one byte too few")


# Prefixes


def prefixes(lines):
    """What the commands say of each prefix of two media."""
    files = definition_text(LATER_DEFINITION), folded(MESSAGE), folded(FIRST)
    not_media, cut = "11 build MediaRefused NotMedia 0", "11 build MediaRefused Truncated N"
    lines.set(view="prefixes", pieces="1 7 65536", judges="approved", out=4_000, room=1_000)
    call = lambda contents: line_of(collect.embed(contents, LATER_DEFINITION, MESSAGE, FIRST, [Approving()]))
    for what, media, known in ("a JPEG", SMALL, [(0, not_media), (2, cut)]), ("a JPEG with a store", FIRST, [(0, not_media), (2, cut)]):
        said = said_of(media, call)
        assert said == known, said
        for words in EMBED, PLAN:
            lines.set(words=f"{words} V", fault="third 0" if words == EMBED else "third 1")
            wanted = "; ".join(f"from {length} on {text}, asked 0" for length, text in said)
            lines.row(wanted, media.hex(), *files, what=f"{words.split()[0]} of the prefixes of {what}")
    lines.set(view="run", fault="third 0")


def collects():
    lines = Lines("What `plan-collect` says and `embed-collect` builds of files into which others are collected.", "collect_tables.py")
    every_build(lines)
    accepted(lines)
    not_due(lines)
    full(lines)
    prefixes(lines)
    return lines.text
