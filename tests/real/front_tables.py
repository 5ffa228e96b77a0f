"""The table `fronts` of crates/c2_test_rows: what `plan-front` says and `embed-front` builds of films, definitions and messages, and what other commands say of
what is built. The answers of `embed-front` and what a new file has in its chunk tables are written by hand in front_rows.py; all else is computed by
front.py, and by store.py and external.py. rows.py writes the table and checks it.
"""

import external
import front
import front_rows
from build_rows import Vast, definition_text
from build_tables import SMALL_ENOUGH, Lines, new_file, told
from builder import line_of
from front_rows import EMBEDDED, LENGTH, QUESTIONED, Computed
from sidecar_tables import said_of, shown
from store import report
from tables import Approving, folded
from worked_builds import DEFINITION, MESSAGE, changed

EMBED, PLAN = "embed-front J X G OUT", "plan-front J X"
VALID = "valid manifests=1 assertions=2 covered=69 outside=16"
# The first digits of what is to be signed of the film of one table.
SIGNED = "846a5369676e61747572653143a1012640590163"


def built(media=QUESTIONED):
    contents, _, _ = front.embed(media, DEFINITION, MESSAGE)
    return contents


# What is built or refused


def computed():
    """The rows of front_rows.py, of which none differs from what is written by hand there."""
    for each in front_rows.rows():
        each = Computed(each)
        assert not [*each.differences()], each.row.what
        yield each


def every_build(lines):
    lines.set(judges="")
    for each in computed():
        put(lines, each)
    text, status = line_of(front.plan(QUESTIONED, DEFINITION))
    assert (len(text), text[:44], status) == (754, f"tbs {SIGNED}", 0), text


def put(lines, each):
    """Appends a row for `embed-front`, and one for `plan-front` where it is of other files than the row before."""
    media = each.row.media
    is_vast = isinstance(media, Vast)
    shown_media = media.front.hex() if is_vast else folded(media)
    files = shown_media, definition_text(each.row.definition), folded(each.row.message)
    is_long = not is_vast and len(media) > SMALL_ENOUGH
    is_planned = files[:2] == tuple(lines.files.get(at) for at in range(2))
    lines.set(words=EMBED, size=media.size if is_vast else "none", pieces="65536" if is_long else "1 7 65536")
    lines.set(room=1_000, out="none" if each.new is None else len(each.new))
    new = "" if each.new is None else new_file(each.new)
    lines.row(told((each.status, each.line), []) + new, *files, what=f"embed-front: {each.row.what}")
    if not is_planned:
        line, status = line_of(each.planned)
        lines.set(words=PLAN, out="none")
        lines.row(told((status, line), []), *files[:2], what=f"plan-front: {each.row.what}")


# What is said of what is built


def moved():
    """The new file of the film of one table: its front by hand, with the moved place in its last field."""
    contents = built()
    box = contents[16 : 16 + LENGTH]
    by_hand = QUESTIONED[:16], box, QUESTIONED[16:72], (1_304).to_bytes(4, "big"), QUESTIONED[76:]
    assert contents == b"".join(by_hand) and contents[1_304:] == b"A" and len(contents) == 1_305
    return contents


def accepted(lines):
    """What `validate`, `strip` and `extract` say of the new file, and `validate` of it with a byte changed or two swapped."""
    contents = moved()
    mismatch = "failing assertion.bmffHash.mismatch self#jumbf=/c2pa/urn:c2pa:00000000-0000-4000-8000-000000000000/c2pa.assertions/c2pa.hash.bmff.v2"
    lines.set(words="validate P V", judges="approved", pieces="1 7 65536", size="none", out="none")
    unmoved = contents[:1_292] + QUESTIONED[72:76] + contents[1_296:]
    for what, file, known in (
        ("a new file is accepted", contents, VALID),
        ("a new file with another byte in its media", contents[:-1] + b"B", mismatch),
        ("a new file with the place that its field told before", unmoved, mismatch),
        ("a new file with another byte in its file type box, which isn't covered", changed(contents, 12), VALID),
    ):
        judge = Approving()
        line, status = report("validate", file, [judge])
        assert line == known, (what, line)
        lines.row(told((status, line), [judge.asked]), file.hex(), what=what)
    lines.set(judges="")
    for command, known in ("strip", "strip Middle 16"), ("extract", "extracted 1175"):
        line, status, new = external.answer(command, contents)
        assert line == known, (command, line)
        lines.set(words=f"{command} J OUT", out="none" if new is None else len(new))
        lines.row(told((status, line), []) + ("" if new is None else new_file(new)), contents.hex(), what=f"{command} of a new file")
    again(lines, contents)


def again(lines, contents):
    """A film that has a store in front takes no other there."""
    assert line_of(front.embed(contents, DEFINITION, MESSAGE))[0] == "build HasStore"
    lines.set(words=EMBED, out="none")
    lines.row("11 build HasStore", contents.hex(), definition_text(DEFINITION), folded(MESSAGE), what="embed-front into a new file")


# What isn't read, and a new file that is full


def not_due(lines):
    """What isn't due isn't read: its first call would fail."""
    lines.set(judges="", size="none", pieces="7", out="none")
    for words, fault, media, given, known in (
        (PLAN, "second", b"", DEFINITION, "build MediaRefused NotMedia 0"),
        (EMBED, "second", b"", DEFINITION, "build MediaRefused NotMedia 0"),
        (EMBED, "third", b"", DEFINITION, "build MediaRefused NotMedia 0"),
        (EMBED, "third", QUESTIONED, b"{}", "build BadDefinition label"),
    ):
        files = media.hex(), definition_text(given), folded(MESSAGE)
        lines.set(words=words, fault=f"{fault} 1")
        named = {"second": "the definition", "third": "the message"}[fault]
        lines.row(f"11 {known}", *files[: 2 if words == PLAN else 3], what=f"{words.split()[0]}, {known}: {named} isn't read")
    lines.set(fault="second 0")


def full(lines):
    """A new file that takes one byte less than there is to be written."""
    contents = built()
    lines.set(words=EMBED, pieces="1 7 65536", out=len(contents) - 1)
    files = QUESTIONED.hex(), definition_text(DEFINITION), folded(MESSAGE)
    wanted = f"6 nothing, not finished{new_file(contents[:-1])}, not finished"
    lines.row(wanted, *files, what="embed-front into a new file that takes one byte too few")


# Prefixes


def prefixes(lines):
    """What the commands say of each prefix of the film of one table, which is worked out by hand but for the bytes of new files."""
    cut = "11 build MediaRefused Truncated N"
    files = definition_text(DEFINITION), folded(MESSAGE)
    built_of = {end: f"0 {EMBEDDED}{new_file(built(QUESTIONED[:end]))}" for end in (16, 76)}
    planned_of = {end: " ".join(map(str, reversed(line_of(front.plan(QUESTIONED[:end], DEFINITION))))) for end in (16, 76)}
    lines.set(view="prefixes", pieces="1 7 65536", judges="", size="none", out=2_000)
    for words, known_of, call in (EMBED, built_of, embedded), (PLAN, planned_of, planned):
        said = said_of(QUESTIONED, call)
        known = [(0, "11 build MediaRefused NotMedia 0"), (8, cut), (16, known_of[16]), (17, cut), (76, known_of[76]), (77, cut)]
        assert said == known, (words, said)
        lines.set(words=words)
        lines.row(shown(said), QUESTIONED.hex(), *files[: 2 if words == EMBED else 1], what=f"{words.split()[0]} of the prefixes of a film")
    lines.set(view="run")


def embedded(contents):
    """The answer of `embed-front` with what the new file is, so that the last word of a refusal stays its last."""
    each = front.embed(contents, DEFINITION, MESSAGE)
    line, status = line_of(each)
    return line + (new_file(each[0]) if isinstance(each[0], bytes) else ""), status


def planned(contents):
    return line_of(front.plan(contents, DEFINITION))


def fronts():
    lines = Lines("What `plan-front` says and `embed-front` builds of films.", "front_tables.py")
    every_build(lines)
    accepted(lines)
    not_due(lines)
    full(lines)
    prefixes(lines)
    return lines.text
