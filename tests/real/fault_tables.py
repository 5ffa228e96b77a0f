"""The tables of crates/c2_test_rows in which objects fail, and in which files are cut short or changed.

`faults` lets each source, the new file and the report of each command fail at each of its calls in turn, `judge_faults` each ask of a judge;
`jpeg_prefixes` and `film_prefixes` have what `validate` says of each prefix of a small built file, and `changed_bytes` its status for each byte
of a store that is one more. What the runs come to is computed by store.py, pairs.py, builder.py, front.py, collect.py and external.py; rows.py writes the
tables and checks them.
"""

from itertools import chain, count, product

import collect
import collect_rows
import compare_rows
import external
import front
import hashing
import pairs
import samples
from build_rows import Computed, Says
from build_tables import EMBED, PLAN, Lines, definition_text, new_file, told
from builder import embed, line_of, plan
from built_films import film_in_front
from collect_tables import EMBED as EMBED_COLLECT
from collect_tables import PLAN as PLAN_COLLECT
from drafts import Jpeg
from front_rows import OVERFLOWING, QUESTIONED
from front_tables import EMBED as EMBED_FRONT
from front_tables import PLAN as PLAN_FRONT
from locate import Refused
from media import media_of
from rule_rows import shared_rows
from store import DONE, JUDGE_FAULT, JudgeFault, report
from tables import Approving, folded
from worked_builds import DEFINITION, FILM, LATER_DEFINITION, MESSAGE, SMALL, changed

NAMES = {"media": "the media", "second": "the second file", "third": "the message", "fourth": "the other file", "out": "the new file", "report": "the report"}
SINKS = "out", "report"
READING = "digest", "list", "show", "questions", "validate"
# Those of them that ask judges, and those that read each byte of a file with a store.
ASKING = "questions", "validate"
WHOLE = "digest", "validate"
# The lengths of pieces in which files are read and written.
PIECES = 1, 7, 100
# Pairs of compare_rows.py that are compared while objects fail.
PAIRS = """
other notes under one sum
swapped bytes of the picture
other titles under one signature
a file and itself
other claims
a first file with another note
other notes under SHA-256
no store
""".strip().split("\n")
USAGE = (
    "usage: c2 digest MEDIA [ALG]; list|show MEDIA; questions|validate MEDIA [JUDGE..]; compare MEDIA OTHER [JUDGE..]; "
    "plan MEDIA DEFINITION [JUDGE..]; embed MEDIA DEFINITION SIGNATURE OUT [JUDGE..]; sample N; "
    "strip|extract MEDIA OUT; validate-external MEDIA STORE [JUDGE..]; plan-front MEDIA DEFINITION; embed-front MEDIA DEFINITION SIGNATURE OUT; "
    "plan-collect MEDIA DEFINITION OTHER [JUDGE..]; embed-collect MEDIA DEFINITION SIGNATURE OTHER OUT [JUDGE..]"
)


def lines_of(what, **given):
    """A table without rows."""
    lines = Lines(what, "fault_tables.py")
    lines.set(**given)
    return lines


def judged(command, contents):
    """What a command says of a file before a judge who approves, the status, and how often he is asked."""
    judge = Approving()
    return *report(command, contents, [judge]), judge.asked


def built(media=SMALL, given=DEFINITION):
    return Computed("", media, given, MESSAGE, "approved", None)


def built_file(media=SMALL):
    return built(media).embedded[2]


def shared():
    """A JPEG with four manifests, whose last reaches the first by two others, of which one redacts in it."""
    _, known, drafts = next(shared_rows())
    contents = Jpeg().file(drafts)
    assert judged("validate", contents) == (known, DONE, 4), known
    return contents


class Run:
    """A run in which nothing fails: what the row shows, its words, files, status and report, the new file or None, how often a judge is asked who
    approves, or None where there is none, and the hash. And of each object how many bytes go over it at least."""

    def __init__(self, what, words, files, status, text, contents=None, asked=None, alg="sha"):
        self.what, self.words, self.files, self.status, self.text = what, words, files, status, text
        self.contents, self.asked, self.hash = contents, asked, alg
        self.over = {"report": len(text) + 1} | ({} if contents is None else {"out": len(contents)})
        # how often the judge may have been asked when an object fails
        self.before = {name: [asked] for name in SINKS}

    def reads(self, asked, **lengths):
        """Sources of which so many bytes are read at least, and how often the judge may have been asked when one of them fails."""
        self.over = lengths | self.over
        self.before |= {name: sorted(set(asked)) for name in lengths}
        return self

    def wanted(self):
        text = told((self.status, self.text.replace("\n", " / ")), [] if self.asked is None else [self.asked])
        return text + ("" if self.contents is None else new_file(self.contents))

    def put(self, lines):
        """Appends a row for each object and each length of pieces."""
        judge = "" if self.asked is None else "approved"
        lines.set(words=self.words, judges=judge, hash=self.hash)
        lines.set(room=max(1_000, len(self.text) + 1), out="none" if self.contents is None else len(self.contents))
        for most, name in product(PIECES, self.over):
            lines.set(pieces=most, fault=name, status=6 if name in SINKS else 5, part="yes" if self.may_have_told(name) else "no")
            # a sink is finished by a call of its own
            lines.set(least=-(-self.over[name] // most) + (name in SINKS))
            lines.set(asked=" ".join(map(str, self.before[name])) if judge else "")
            lines.row(self.wanted(), *self.files, what=f"{self.what}: each call of {NAMES[name]} fails")

    def may_have_told(self, name):
        """Whether a part of the report may be there when an object fails; `compare` reads on while it tells a difference."""
        return name == "report" or (name != "out" and self.text.startswith("evidence"))


# Each call of a source or a sink


def faults():
    lines = lines_of("Each source, the new file and the report of each command fail at each call in turn.", view="each call")
    for run in chain(read_runs(), compare_runs(), every_build(), every_front(), every_collect(), other_runs(), sidecar_runs()):
        run.put(lines)
    single_faults(lines)
    return lines.text


def read_runs():
    for what, contents in ("a JPEG", built_file()), ("a film", built_file(FILM)):
        for command in READING:
            yield read_run(what, command, contents)
    for command in ASKING:
        yield read_run("four manifests", command, shared())
    for command in WHOLE:
        yield read_run("a JPEG without a store", command, SMALL)


def read_run(what, command, contents):
    """The run of a command that reads a file. Where that has a store each byte of it is read."""
    text, status, asked = judged(command, contents)
    words = f"{command} P V" if command in ASKING else f"{command} P"
    media = media_of(contents)
    length = 1 if media is None else len(contents) if command in WHOLE else len(media.store)
    run = Run(f"{command} of {what}", words, [folded(contents)], status, text, asked=asked if command in ASKING else None)
    return run.reads([0, asked] if command == "validate" else [0], media=length)


def compare_runs():
    given = {what: each for what, *each, _ in compare_rows.rows()}
    given |= {what: ("sha", first, second) for what, first, second in compare_rows.more_rows()}
    for what in PAIRS:
        yield compare_run(what, *given[what])


def compare_run(what, name, first, second):
    """The run of `compare` over two files, which are bound by the hash of a name."""
    hashing.choose(name)
    text, status = pairs.compared(first, second, [Approving()])
    _, first_status, first_asked = judged("validate", first)
    asked = compare_rows.asked_of(first, second)
    hashing.choose("sha")
    run = Run(f"compare, {what}", "compare P Q V", [first.hex(), second.hex()], status, text, asked=asked, alg=name)
    if first_status == DONE:
        run.reads([first_asked, asked], second=1 if media_of(second) is None else len(second))
    return run.reads([0, first_asked, asked], media=len(first))


def every_build():
    yield from build_runs("", built())
    yield from build_runs(" over a store", built(built_file(), LATER_DEFINITION))
    yield from build_runs(" into a film", built(FILM))
    yield from build_runs(" into a film with a store", built(film_in_front(), LATER_DEFINITION))
    yield from build_runs(" into no media", built(SMALL[:-1]))


def build_runs(into, each):
    """The runs of `embed` and of `plan`, before a judge where the media has a store. Of a media that is refused not all is read, and of the rest
    nothing."""
    files = [folded(each.media), definition_text(each.given), folded(each.signature)]
    lengths = {"media": len(each.media), "second": len(each.given), "third": len(each.signature)}
    for words, made in (EMBED, each.embedded), (PLAN, each.planned):
        status, text, contents, (asked,) = made
        used = files if words == EMBED else files[:2]
        is_judged = status == DONE and media_of(each.media) is not None
        what = words.split()[0] + into
        run = Run(what, words + " V" * is_judged, used, status, text, contents if words == EMBED else None, asked if is_judged else None)
        yield run.reads([0, 1], **(dict(list(lengths.items())[: len(used)]) if status == DONE else {"media": 1}))


def every_front():
    yield from front_runs(" into a film", QUESTIONED)
    yield from front_runs(" into a film whose place doesn't fit", OVERFLOWING)
    yield from front_runs(" into a JPEG", SMALL)
    yield from front_runs(" into a film with a store", built_file(FILM))
    yield from front_runs(" into no media", SMALL[:-1])


def front_runs(into, media):
    """The runs of `embed-front` and of `plan-front`. Of a media that isn't one nothing else is read; of one that is refused behind that definition and
    message are."""
    files = [folded(media), definition_text(DEFINITION), folded(MESSAGE)]
    lengths = {"second": len(DEFINITION), "third": len(MESSAGE)}
    for words, made in (EMBED_FRONT, front.embed(media, DEFINITION, MESSAGE)), (PLAN_FRONT, front.plan(media, DEFINITION)):
        text, status = line_of(made)
        used = 3 if words == EMBED_FRONT else 2
        run = Run(words.split()[0] + into, words, files[:used], status, text, made[0] if isinstance(made[0], bytes) else None)
        read = {} if "MediaRefused" in text else dict(list(lengths.items())[: used - 1])
        yield run.reads([0], media=len(media) if status == DONE else 1, **read)


def every_collect():
    first, third, film = built_file(), collect_rows.signed(label=collect_rows.named(3)), built_file(FILM)
    yield from collect_runs(" into a JPEG", SMALL, first)
    yield from collect_runs(" of a JPEG into itself", first, first)
    yield from collect_runs(" of a JPEG into a film with a store", film, third)
    yield from collect_runs(" of a film into a film", FILM, film)
    yield from collect_runs(" of a JPEG without a store", first, SMALL)
    yield from collect_runs(" of a store that clashes", first, collect_rows.signed(changed(SMALL, 19)))
    yield from collect_runs(" into a changed JPEG", changed(first, 19), third)
    yield from collect_runs(" into no media", SMALL[:-1], first)


def collect_runs(into, media, other):
    """The runs of `embed-collect` and of `plan-collect`. Of a media that isn't one nothing else is read, of one that is refused behind that the other file
    isn't. Judges are asked once definition and message are read: of the media's store, and then of the other file's."""
    files = [folded(media), definition_text(LATER_DEFINITION), folded(MESSAGE), folded(other)]
    older = asked_of_media(media)
    for words, call, given in (EMBED_COLLECT, collect.embed, [MESSAGE]), (PLAN_COLLECT, collect.plan, []):
        judge = Approving()
        made = call(media, LATER_DEFINITION, *given, other, [judge])
        text, status = line_of(made)
        run = Run(words.split()[0] + into, f"{words} V", files, status, text, made[0] if isinstance(made[0], bytes) else None, judge.asked)
        is_done = status == DONE
        if "MediaRefused" not in text and "ParentFails" not in text:
            run.reads([older, judge.asked], fourth=len(other) if is_done else 1)
        if "MediaRefused" not in text:
            run.reads([0], **({"second": len(LATER_DEFINITION)} | ({"third": len(MESSAGE)} if given else {})))
        yield run.reads([0, older, judge.asked], media=len(media) if is_done else 1)


def asked_of_media(media):
    """How often a judge who approves is asked of a media's store; never, where it has none that can be read."""
    try:
        return judged("validate", media)[2] if media_of(media) else 0
    except Refused:
        return 0


def other_runs():
    text, status = samples.expected(1)
    yield Run("sample 1", "sample 1", ["00"], status, text.removesuffix("\n"), asked=1)
    yield Run("words that fit no command", "check P", ["00"], 4, USAGE)


def sidecar_runs():
    """The runs of `strip` and `extract`, of which the latter reads of a file with a store that at least, and those of `validate-external`."""
    for command in external.WRITERS:
        for what, contents in ("a JPEG", built_file()), ("a film", built_file(FILM)), ("a JPEG without a store", SMALL):
            yield taking_run(f"{command} of {what}", command, contents)
    yield taking_run("strip of a film with its store in front", "strip", film_in_front())
    yield from external_runs()


def taking_run(what, command, contents):
    text, status, new = external.answer(command, contents)
    media = media_of(contents)
    length = 1 if media is None else len(contents) if command == "strip" and status == DONE else len(media.store)
    return Run(what, f"{command} J OUT", [folded(contents)], status, text, new).reads([0], media=length)


def external_runs():
    """A store that isn't read asks for nothing; of one that is refused the media is read no further than its container."""
    signed, film = built_file(), built_file(FILM)
    picture_store, film_store = media_of(signed).store, media_of(film).store
    for what, contents, store in (
        ("a JPEG and its own store", signed, picture_store),
        ("a film without a store and the one that it had", FILM, film_store),
        ("a JPEG and a store with one byte more", signed, picture_store + b"\0"),
        ("no media", SMALL[:1], picture_store),
    ):
        judge = Approving()
        text, status, _ = external.answer("validate-external", contents, lambda: store, [judge])
        run = Run(f"validate-external of {what}", "validate-external J S V", [folded(contents), folded(store)], status, text, asked=judge.asked)
        if contents != SMALL[:1]:
            run.reads([0], second=len(store))
        yield run.reads([0, judge.asked], media=len(contents) if status == DONE else 1)


def single_faults(lines):
    """A media that fails before anything is written, and a new file that fails behind its first byte."""
    files = SMALL.hex(), definition_text(DEFINITION), folded(MESSAGE)
    lines.set(view="run", words=EMBED, judges="", pieces=1, out=2_000, fault="media 3")
    lines.row("5 nothing, not finished", *files, what="embed: the media fails at its third call")
    lines.set(fault="out 2")
    lines.row(f"6 nothing, not finished{new_file(SMALL[:1])}, not finished", *files, what="embed: the new file fails at its second call")


# Each ask of a judge


def judge_faults():
    lines = lines_of("Each ask of a judge fails in turn, until none does.", pieces="7", room=4_000)
    contents = shared()
    file = contents.hex()
    for command in ASKING:
        asking = lambda judges: (*report(command, contents, judges), None)
        each_ask(lines, "one judge", f"{command} P V", [file], asking, ["approved"])
        each_ask(lines, "the second of three judges", f"{command} P V W X", [file], asking, ["silent", "approved", "invalid"])
    each_ask(lines, "one judge", "compare P Q V", [file, file], lambda judges: compared(contents, contents, judges), ["approved"])
    store = media_of(contents).store
    asking = lambda judges: (*external.validate_external(contents, lambda: store, judges), None)
    each_ask(lines, "one judge", "validate-external P S V", [file, folded(store)], asking, ["approved"])
    given = contents, LATER_DEFINITION, MESSAGE
    files = [file, definition_text(LATER_DEFINITION), folded(MESSAGE)]
    lines.set(out=8_000)
    each_ask(lines, "one judge", EMBED + " V", files, lambda judges: build(embed, *given, judges), ["approved"])
    each_ask(lines, "one judge", PLAN + " V", files[:2], lambda judges: build(plan, *given[:2], judges), ["approved"])
    given = collect_rows.FIRST, LATER_DEFINITION, MESSAGE, contents
    files = [given[0].hex(), *files[1:], file]
    lines.set(out=10_000)
    each_ask(lines, "one judge", EMBED_COLLECT + " V", files, lambda judges: build(collect.embed, *given, judges), ["approved"])
    each_ask(lines, "one judge", PLAN_COLLECT + " V", files, lambda judges: build(collect.plan, *given[:2], contents, judges), ["approved"])
    asking = lambda judges: build(collect.embed, *given, judges)
    each_ask(lines, "the second of three judges", EMBED_COLLECT + " V W X", files, asking, ["silent", "approved", "invalid"])
    text, status = samples.expected(1)
    each_ask(lines, "one judge", "sample 1", [file], lambda judges: sampled(text, status, judges), ["approved"])
    return lines.text


def compared(first, second, judges):
    """What `compare` says of two files. The judges are asked about one after the other; pairs.py asks more often."""
    for contents in first, second:
        report("validate", contents, judges)
    return *pairs.compared(first, second, [Approving()]), None


def build(call, *given):
    """The line of a build, its status and the new file or None."""
    made = call(*given)
    return *line_of(made), made[0] if isinstance(made[0], bytes) else None


def sampled(text, status, judges):
    """`sample` asks about the one question of its file."""
    assert "" in judges[0]
    return text.removesuffix("\n"), status, None


def each_ask(lines, who, words, files, run, said):
    """A row for each ask of the judge who approves, where it fails, and one for the run in which none fails."""
    for ask in count(1):
        judges = [Says(word, ask if word == "approved" else 0) for word in said]
        lines.set(words=words, judges=" ".join(f"{word}@{ask}" if word == "approved" else word for word in said))
        try:
            text, status, contents = run(judges)
        except JudgeFault:
            text, status, contents = "", JUDGE_FAULT, None
        made = told((status, text.replace("\n", " / ")), [judge.asked for judge in judges]) + (new_file(contents) if contents else "")
        lines.row(made, *files, what=f"{words.split()[0]}, ask {ask} of {who}")
        if status == DONE:
            break


# Prefixes and changed bytes


def prefixes(what, contents, known):
    """What `validate` says of each prefix of a file: as it is worked out by hand, and as store.py says it."""
    said = []
    for length in range(len(contents)):
        text, status = report("validate", contents[:length])
        front, _, last = text.rpartition(" ")
        text = f"{status} {front} N" if length and last == str(length) else f"{status} {text}"
        if not said or said[-1][1] != text:
            said.append((length, text))
    assert said == known, said
    lines = lines_of(f"What `validate` says of the prefixes of {what}.", words="validate P", pieces="1 7 65536", view="prefixes")
    lines.row("; ".join(f"from {length} on {text}" for length, text in said), contents.hex(), what=f"the prefixes of {what}")
    return lines.text


NOT_MEDIA, TRUNCATED, NONE = "2 refused NotMedia 0", "2 refused Truncated N", "3 none"


def jpeg_prefixes():
    contents = built_file()
    assert len(contents) == 1_163
    return prefixes("a small JPEG with a store", contents, [(0, NOT_MEDIA), (2, TRUNCATED)])


def film_prefixes():
    contents = built_file(FILM)
    assert len(contents) == 1_245
    known = [(0, NOT_MEDIA), (8, TRUNCATED), (16, NONE), (17, TRUNCATED), (25, NONE), (26, TRUNCATED)]
    return prefixes("a small film with a store", contents, known)


def changed_bytes():
    """The status for each byte of a store that is one more; a byte of 255 becomes 0."""
    contents = built_file()
    store = media_of(contents).store
    at = contents.index(store)
    statuses = []
    for place in range(at, at + len(store)):
        other = bytearray(contents)
        other[place] = (other[place] + 1) % 256
        statuses.append(judged("validate", bytes(other))[1])
    assert len(statuses) == 1_129 and set(statuses) <= {0, 1, 2, 3}
    lines = lines_of("What `validate` says of a small JPEG in which one byte of the store is changed.", words="validate P V", judges="approved")
    lines.set(pieces="7 65536", view="changes", around=f"{at}/{len(contents) - at - len(store)}")
    lines.row("".join(map(str, statuses)), contents.hex(), what="each byte of the store, one more")
    return lines.text
