#!/usr/bin/env python3
"""Makes the test vectors of vectors/: media, definitions, messages, verdict files, and what each command must say of them.

    vectors.py write [FOLDER]      writes the vectors into a folder, vectors/ where none is named
    vectors.py check [FOLDER]      fails where a file there isn't the one that would be written, or is missing, or is there besides

The answers are those of store.py, pairs.py, builder.py, front.py, collect.py and external.py, beside those that are written by hand where the files are
made (vector_files.py, vector_builds.py, vector_fronts.py, vector_collects.py, vector_external.py, and the rows that these take), which must be the same.
Nothing is asked of c2.
"""

import functools
import hashlib
import json
import pathlib
import re
import sys

import bmff
import builder
import collect
import external
import front
import jumbf
import pairs
import rule_rows
import store
import tables
import vector_builds
import vector_collects
import vector_external
import vector_files
import vector_fronts
from build_rows import Vast
from collected import wrong_in as wrong_in_collected
from definition import read as read_definition
from front_rows import wrong_in
from locate import LARGEST_STORE, Refused
from manifests import Manifest as Read
from manifests import manifests_of
from media import media_of
from store import DONE, INPUT_FAULT, JUDGE_FAULT, USAGE, JudgeFault, printable
from vector_builds import whole
from worked_builds import DEFINITION, LATER_DEFINITION, MESSAGE

TOP = pathlib.Path(__file__).resolve().parent.parent.parent
PLACE = TOP / "vectors"
# A film of a million root boxes is read once and not for each command.
bmff.root_boxes = functools.lru_cache(maxsize=2)(bmff.root_boxes)
# Written by hand.
KEPT = {"README.md", "run"}
# Longer files are told by pieces.
LONGEST = 90_000
# Longer files that are told by pieces put no question.
MOST_ASKED = 5_000_000
READERS = "digest", "list", "show"
JUDGE, APPROVING = "verdicts/judge", "verdicts/approving"
BROKEN = "verdicts/no-verdict-file"
ALGORITHMS = "sha256", "sha384", "sha512"
WORDS = "mismatch", "untrusted", "invalid"
ODD_FILES = "the-first-row-holds", "upper-case-digits", "no-line-feed-at-the-end"
# The folder of the new files, by that of the media.
BUILT = {"build": "built", "front": "built-front", "collect": "built-collect"}
# The files that are run under judges of each kind.
JUDGED = "a data hash alone", "an ingredient"
USUAL = {DEFINITION: "plain", LATER_DEFINITION: "later", MESSAGE: "plain"}
# Files whose stores are kept in files of their own, one of each form: what is left of them, and the store.
TAKEN_OUT = {
    "the store between other boxes",
    "the store before an index of fragments",
    "a scan, an end, and bytes behind it",
    "packets with fill bytes between them",
    "a store in packets with a length of eight bytes",
    "an update and a redaction in a film",
    "a C2PA box of eight bytes of length isn't the one that /uuid excludes by its user type at 8",
}
TAKEN = [[command] for command in external.WRITERS]
GROUPS = {
    "valid": "Valid",
    "failing": "A rule fails",
    "refused": "Refused",
    "none": "No store",
    "reading": "Spellings, for `list`, `show` and `questions`",
}


class Files:
    """The files of the folder by their names: bytes, or pieces."""

    def __init__(self):
        self.contents, self.pieces, self.names = {}, {}, {}

    def put(self, folder, what, kind, contents):
        """The name of a file: the one that it has where it was put into a folder of that group before."""
        key = folder.split("/")[0], contents if isinstance(contents, bytes) else repr(contents)
        if key not in self.names:
            pieces = pieces_of(contents)
            name = self.free_name(f"{'made' if pieces else folder}/{slug(what)}", kind)
            self.names[key] = name
            if pieces:
                self.pieces[name] = pieces
            else:
                self.contents[name] = contents
        return self.names[key]

    def free_name(self, name, kind):
        numbers = (f"{name}{'' if number == 1 else f'-{number}'}.{kind}" for number in range(1, 1_000))
        return next(each for each in numbers if each not in self.contents and each not in self.pieces)


def slug(what):
    """A name of lower case letters, digits and hyphens for what a file shows."""
    words = re.sub("[^a-z0-9.]+", "-", what.lower()).strip("-.")
    return words[:90].strip("-.")


def pieces_of(contents):
    """Pieces of a file that is too long to be kept; none for another."""
    if isinstance(contents, list):
        return [spelled_piece(piece) for piece in contents]
    if len(contents) <= LONGEST:
        return None
    pieces, at = [], 0
    for run in re.finditer(rb"(.{1,2}?)\1{499,}", contents, re.DOTALL):
        pieces += [(contents[at : run.start()], 1), (run[1], len(run[0]) // len(run[1]))]
        at = run.end()
    return [spelled_piece(piece) for piece in [*pieces, (contents[at:], 1)] if piece[0]]


def spelled_piece(piece):
    if isinstance(piece, int):
        return {"size": piece}
    contents, times = piece
    if isinstance(times, range):
        at = contents.index(b"##")
        return {"hex": (contents[:at] + bytes(2) + contents[at + 2 :]).hex(), "numbers": [times[0], times[-1]], "at": at}
    return {"hex": contents.hex(), "times": times}


class Vectors:
    """All files, and all runs in their order."""

    def __init__(self):
        self.files, self.runs = Files(), []
        # what each shows: the names of its files, and what else it takes
        self.media, self.pairs, self.builds, self.fronts, self.collects, self.externals = [], [], [], [], [], []
        # the verdicts on all questions that any file puts: the judge's, by signature, and those of one who approves
        self.verdicts = {"judge": {}, "approving": {}}
        self.collect()
        self.put_verdicts()
        self.read_media()
        self.read_judged()
        self.read_digests()
        self.compare()
        self.build()
        self.build_in_front()
        self.build_collecting()
        self.take_out()
        self.validate_external()
        self.run_words()

    # What there is

    def collect(self):
        for kind, what, known, contents in vector_files.media():
            self.add_media(kind, what, known, contents)
        for what, *files in vector_files.pairs():
            names = (self.files.put("pairs", f"{what}-{place}", ending(given), given) for place, given in zip(("first", "second"), files))
            self.pairs.append((what, *names))
            for contents in files:
                self.ask(contents)
        for each in vector_builds.rows():
            self.add_build(each)
        for each in vector_fronts.rows():
            self.add_front(each)
        for each in vector_collects.rows():
            self.add_collect(each)
        for what, known, media, contents in vector_external.rows():
            kept = self.files.put("external", what, "jpg" if ending(media) == "jpg" else "mp4", media)
            store_name = self.files.put("external", what, "c2pa", contents)
            self.externals.append((what, known, kept, store_name, media, contents))
            found = vector_external.verdicts_in(contents) if isinstance(contents, bytes) else {}
            self.verdicts["judge"] |= found
            self.verdicts["approving"] |= {identity: "approved" for identity in rule_rows.questions_of_store(contents)} if found else {}

    def add_media(self, kind, what, known, contents):
        """A media file, in a folder that says what `validate` answers."""
        data = whole(contents)
        verdicts = self.ask(data)
        is_long = isinstance(data, bytes) and len(data) > MOST_ASKED
        line = known if is_long else store.report("validate", data, [verdicts])[0]
        assert known in (None, line), (what, line, known)
        answer, *more = line.split(" ")
        group, _, name = what.rpartition(": ") if ": " in what else ("", "", what)
        folder = f"{answer}/{more[0]}" if answer in ("failing", "refused") else answer
        if group in ("shown", "asked"):
            folder = "reading"
        elif group not in ("none", *vector_builds.REASONS):
            name = what
        kind = ending(data) if kind == "pieces" else kind
        self.media.append((self.files.put(folder, name, kind, contents), folder.split("/")[0], name, line, data))

    def add_build(self, each):
        """A build, unless its new file is too long to be kept."""
        data, new = whole(each.media), None
        self.ask(data)
        if not str(each.known).startswith("build "):
            _, _, new = answered(builder.embed, data, each.definition, each.message, [tables.Approving()])
        if new is not None and len(new) > LONGEST:
            return
        self.builds.append((each, *self.put_build("build", each, data, new)))

    def add_front(self, each):
        """A build whose store stands in front, and what the independent program says of it: lines, statuses and the new file. A film of too many
        boxes takes that program long: what is written by hand stands."""
        data = whole(each.media)
        if isinstance(data, bytes) and len(data) > MOST_ASKED:
            told, new = [(each.known, builder.BUILD_REFUSED)], None
        else:
            made = front.plan(data, each.definition), front.embed(data, each.definition, each.message)
            told, new = [builder.line_of(one) for one in made], made[1][0] if isinstance(made[1][0], bytes) else None
            assert new is None or not list(wrong_in(data, made[1], made[0])), each.what
        assert told[-1] == (each.known, told[-1][1]), (each.what, told[-1], each.known)
        names, built = self.put_build("front", each, data, new)
        self.fronts.append((each.what, told, names, built))

    def add_collect(self, each):
        """A build into which another file is collected."""
        data, new = whole(each.media), None
        for contents in data, each.other:
            self.ask(contents)
        if not str(each.known).startswith("build "):
            given = data, each.definition, each.other
            _, _, new = answered(collect.embed, *given[:2], each.message, each.other, [tables.Approving()])
            if new is not None:
                self.look_at(each, given, new)
        names, built = self.put_build("collect", each, data, new)
        other = self.files.put("collect", f"{each.what} the other one", ending(each.other), each.other)
        self.collects.append((each, [*names, other], built))

    def look_at(self, each, given, new):
        """Whether a new file is as collected.py has it."""
        media, definition, other = given
        planned = collect.plan(media, definition, other, [tables.Approving()])
        found = media_of(new)
        made = new, found.start, found.length
        assert not list(wrong_in_collected(media, other, made, planned, read_definition(definition).redactions)), each.what

    def put_build(self, folder, each, data, new):
        """The names of a build's media, definition and message, and of its new file, whose questions are approved."""
        names = [self.files.put(folder, each.what, ending(data), each.media)]
        for kept, contents, kind in ("definitions", each.definition, "json"), ("messages", each.message, "cose"):
            names.append(self.files.put(kept, USUAL.get(contents, each.what), kind, contents))
        if new is None:
            return names, None
        self.ask(new)
        return names, self.files.put(BUILT[folder], each.what, ending(new), new)

    def ask(self, contents):
        """The verdicts on the questions of a file, by its signatures, which are kept."""
        if isinstance(contents, Vast) or MOST_ASKED < len(contents) < LARGEST_STORE:
            return {}
        try:
            found = rule_rows.verdicts_on(contents)
        except (Refused, AttributeError):
            return {}
        self.verdicts["judge"] |= found
        for identity, _, _ in questions_of(contents):
            self.verdicts["approving"][identity] = "approved"
        return found

    def put_verdicts(self):
        """The verdict files, once all questions are known."""
        lines = lambda rows: "".join(f"{identity} {word}\n" for identity, word in sorted(rows.items())).encode()
        files = {name: lines(rows) for name, rows in self.verdicts.items()}
        for word in WORDS:
            files[f"all-{word}"] = lines(dict.fromkeys(self.questions_under(f"verdicts/all-{word}"), word))
        first, *_ = self.media[0]
        (identity,) = rule_rows.verdicts_on(self.files.contents[first])
        files |= {
            "empty": b"",
            "no-verdict-file": b"approved\n",
            "upper-case-digits": f"{identity.upper()} approved\n".encode(),
            "no-line-feed-at-the-end": f"{identity} approved".encode(),
            "the-first-row-holds": f"{identity} untrusted\n{identity} approved\n".encode(),
        }
        self.files.contents |= {f"verdicts/{name}": contents for name, contents in files.items()}

    def questions_under(self, judge):
        """The questions of the files that are run under a judge of one word: those of `read_judged`, and media of builds."""
        given = [data for _, _, what, _, data in self.media if what in JUDGED]
        given += [whole(each.media) for each, _, _ in self.builds if judge in each.judges]
        given += [contents for each, _, _ in self.collects if judge in each.judges for contents in (each.media, each.other) if has_questions(contents)]
        return [identity for data in given for identity, _, _ in questions_of(data)]

    # What is said of it

    def judges(self, names):
        """The judges of verdict files, as store.py has them."""
        return [store.verdicts_in(self.files.contents[name]) if name in self.files.contents else None for name in names]

    def run(self, told, *words, new=None):
        line, status = told
        kept = {"words": list(words), "status": status, "report": None if line is None else f"{line}\n" if line else ""}
        self.runs.append(kept | ({} if new is None else {"new": new}))

    def judged(self, data, name, *judges, commands=("questions", "validate")):
        """Runs of commands that read one file, under judges."""
        for command in commands:
            try:
                told = store.report(command, data, self.judges(judges))
            except JudgeFault:
                told = "", JUDGE_FAULT
            self.run(told, command, name, *judges)

    def read_media(self):
        """What each reading command says of each file, without a judge and under the judge; of files that fail `list` and `show` are left out."""
        for name, (line, data) in {name: more for name, _, _, *more in self.media}.items():
            if isinstance(data, bytes) and len(data) > MOST_ASKED:
                # these take the readers in Python minutes: what is written by hand stands
                self.run((line, store.REFUSED), "digest", name)
                continue
            self.judged(data, name, commands=READERS[:1] if name.startswith("failing/") else READERS)
            self.judged(data, name)
            self.judged(data, name, JUDGE)

    def read_judged(self):
        """Judges in their order, over a valid file and over one with an older manifest."""
        files = {what: (name, data) for name, _, what, _, data in self.media}
        alone = [f"verdicts/{name}" for name in ("empty", *(f"all-{word}" for word in WORDS), *ODD_FILES)]
        several = ["verdicts/empty", APPROVING], ["verdicts/all-untrusted", APPROVING], [APPROVING, BROKEN], ["verdicts/empty", BROKEN]
        for name, data in map(files.get, JUDGED):
            for judges in [*([each] for each in alone), *several, [BROKEN], ["verdicts/not-there"]]:
                self.judged(data, name, *judges)

    def read_digests(self):
        """The digest of what stands around a store by each algorithm; another name of one doesn't fit."""
        for name, data in {name: data for name, group, _, _, data in self.media if group == "valid" and len(data) < 2_000}.items():
            media = media_of(data)
            for algorithm in ALGORITHMS:
                state = hashlib.new(algorithm, data[: media.start] + data[media.start + media.length :])
                self.run((f"{media.start} {media.length} {state.hexdigest()}", DONE), "digest", name, algorithm)
        self.run((None, USAGE), "digest", self.media[0][0], "md5")

    def compare(self):
        for _, *names in self.pairs:
            for judges in [APPROVING], []:
                self.run(pairs.compared(*map(self.files.contents.get, names), self.judges(judges)), "compare", *names, *judges)
        _, *names = self.pairs[0]
        self.run(("", JUDGE_FAULT), "compare", *names, BROKEN)

    def build(self):
        """`plan`, `embed`, and what is said of the files that are built."""
        for each, (media, definition, message), built in self.builds:
            data, judges = whole(each.media), self.judges(each.judges)
            if isinstance(data, bytes) and len(data) > MOST_ASKED:
                self.run((each.known, builder.BUILD_REFUSED), "embed", media, definition, message, "OUT", *each.judges)
                continue
            if media not in self.files.pieces:
                self.run(answered(builder.plan, data, each.definition, judges)[:2], "plan", media, definition, *each.judges)
            line, status, new = answered(builder.embed, data, each.definition, each.message, judges)
            assert each.known in (None, line, status), (each.what, line, each.known)
            built = None if new is None else built
            assert new is None or self.files.contents[built] == new, each.what
            self.run((line, status), "embed", media, definition, message, "OUT", *each.judges, new=built)
        for name, contents in list(self.files.contents.items()):
            if name.startswith("built/"):
                self.judged(contents, name, commands=READERS)
                self.judged(contents, name, APPROVING)
                assert self.runs[-1]["status"] == DONE, name

    def build_in_front(self):
        """`plan-front`, `embed-front`, and what is said of the new files; all that is said of the first of them, which isn't built into again."""
        for _, told, (media, definition, message), built in self.fronts:
            if len(told) > 1:
                self.run(told[0], "plan-front", media, definition)
            self.run(told[-1], "embed-front", media, definition, message, "OUT", new=built)
        built = [name for name in self.files.contents if name.startswith("built-front/")]
        for number, name in enumerate(built):
            contents = self.files.contents[name]
            self.judged(contents, name, commands=READERS if number == 0 else READERS[:1])
            self.judged(contents, name, APPROVING, commands=("questions", "validate") if number == 0 else ("validate",))
            assert self.runs[-1]["status"] == DONE, name
        self.run(external.answer("strip", self.files.contents[built[0]])[:2], "strip", built[0], "OUT")
        self.read_in_turn(built[0])

    def read_in_turn(self, built):
        """Files of a build in front whose turn doesn't come needn't be there; those whose turn comes are read."""
        _, told, names, _ = self.fronts[0]
        missing = "front/not-there.mp4", "definitions/not-there.json", "messages/not-there.cose"
        for number, name in enumerate(missing):
            given = [*names[:number], name, *missing[number + 1 :]]
            self.run(("", INPUT_FAULT), "embed-front", *given, "OUT")
            if number < 2:
                self.run(("", INPUT_FAULT), "plan-front", *given[:2])
        self.run(("build HasStore", builder.BUILD_REFUSED), "plan-front", built, names[1])
        by_answer = {told[-1][0]: given for _, told, given, _ in reversed(self.fronts)}
        refused = "build MediaRefused NotMedia 0"
        self.run((refused, builder.BUILD_REFUSED), "plan-front", by_answer[refused][0], missing[1])
        self.run((refused, builder.BUILD_REFUSED), "embed-front", by_answer[refused][0], *missing[1:], "OUT")
        refused = "build BadDefinition label"
        self.run((refused, builder.BUILD_REFUSED), "embed-front", *by_answer[refused][:2], missing[2], "OUT")

    def build_collecting(self):
        """`plan-collect`, `embed-collect`, and what is said of the new files."""
        for each, (media, definition, message, other), built in self.collects:
            data, judges = whole(each.media), self.judges(each.judges)
            words = ["embed-collect", media, definition, message, other, "OUT", *each.judges]
            if isinstance(data, bytes) and len(data) > MOST_ASKED:
                self.run((each.known, builder.BUILD_REFUSED), *words)
                continue
            if media not in self.files.pieces:
                planned = answered(collect.plan, data, each.definition, each.other, judges)[:2]
                self.run(planned, "plan-collect", media, definition, other, *each.judges)
            line, status, new = answered(collect.embed, data, each.definition, each.message, each.other, judges)
            assert each.known in (None, line, status), (each.what, line, each.known)
            built = None if new is None else built
            assert new is None or self.files.contents[built] == new, each.what
            self.run((line, status), *words, new=built)
        built = [name for name in self.files.contents if name.startswith("built-collect/")]
        for number, name in enumerate(built):
            contents = self.files.contents[name]
            self.judged(contents, name, commands=READERS if number == 0 else READERS[:1])
            self.judged(contents, name, APPROVING)
            assert self.runs[-1]["status"] == DONE, name
        self.collect_in_turn(self.collects[0])

    def collect_in_turn(self, first):
        """Files whose turn doesn't come needn't be there; those whose turn comes are read."""
        _, (media, definition, message, other), _ = first
        missing = "collect/not-there.jpg", "definitions/not-there.json", "messages/not-there.cose", "collect/not-there-either.jpg"
        there = media, definition, message, other
        for number, name in enumerate(missing):
            given = [*there[:number], name, *missing[number + 1 :]]
            self.run(("", INPUT_FAULT), "embed-collect", *given, "OUT", APPROVING)
            if number != 2:
                self.run(("", INPUT_FAULT), "plan-collect", *given[:2], given[3], APPROVING)
        by_what = {each.what: names for each, names, _ in self.collects}
        for what, answer, count in (
            ("no media", "build MediaRefused NotMedia 0", 1),
            ("an empty object", "build BadDefinition label", 2),
            ("no message", "build BadSignature form", 3),
        ):
            given = [*by_what[what][:count], *missing[count:]]
            self.run((answer, builder.BUILD_REFUSED), "embed-collect", *given, "OUT", APPROVING)
            if count < 3:
                self.run((answer, builder.BUILD_REFUSED), "plan-collect", *given[:2], given[3], APPROVING)
        changed = by_what["a changed media"][0]
        (answer,) = {run["report"].strip() for run in self.runs if run["words"][:2] == ["plan-collect", changed]}
        self.run((answer, builder.BUILD_REFUSED), "embed-collect", changed, definition, message, missing[3], "OUT", APPROVING)
        self.run((answer, builder.BUILD_REFUSED), "plan-collect", changed, definition, missing[3], APPROVING)

    def take_out(self):
        """`strip` and `extract`: of built files what was built into is left; of some files the store is kept; and one file for each refusal of a
        container, and where there is no store."""
        for (_, (media, *_), built) in self.builds:
            if built is not None and media in self.files.contents and media_of(self.files.contents[media]) is None:
                line, status, left = external.answer("strip", self.files.contents[built])
                assert left == self.files.contents[media], built
                self.run((line, status), "strip", built, "OUT", new=media)
        taken, seen = 0, set()
        for name, group, what, _, data in self.media:
            if isinstance(data, bytes) and len(data) > MOST_ASKED:
                continue
            for command in external.WRITERS:
                line, status, new = external.answer(command, data)
                answer = (command, *line.split(" ")[: 2 if group == "refused" else 1], ending(data))
                if new is not None and (group != "valid" or name not in self.files.contents or answer in seen and what not in TAKEN_OUT):
                    continue
                if new is None and answer in seen:
                    continue
                seen.add(answer)
                kept = None if new is None else self.files.put("taken", f"{what} {command}", ending(data) if command == "strip" else "c2pa", new)
                self.run((line, status), command, name, "OUT", new=kept)

    def validate_external(self):
        """External stores: without a judge, under the judge and one who approves; of the first ones under judges that fail or aren't there."""
        for number, (_, known, media, kept, data, contents) in enumerate(self.externals):
            for judges in [], [JUDGE], [APPROVING], *([[BROKEN], ["verdicts/not-there"], ["verdicts/empty", APPROVING]] if number == 0 else []):
                line, status, _ = external.answer("validate-external", data, lambda: whole(contents) if isinstance(contents, list) else contents, self.judges(judges))
                assert judges != [JUDGE] or known in (None, line), (media, line, known)
                self.run((line, status), "validate-external", media, kept, *judges)
        _, _, media, kept, *_ = self.externals[0]
        self.run(("", INPUT_FAULT), "validate-external", media, "external/not-there.c2pa")
        self.run(("", INPUT_FAULT), "validate-external", "external/not-there.jpg", kept)
        refused = next(each for each in self.externals if each[0] == "the container before the store")
        self.run((refused[1], store.REFUSED), "validate-external", refused[2], "external/not-there.c2pa")

    def run_words(self):
        """Words that don't fit, for which the usage line isn't compared, and a file that isn't there."""
        valid, *_ = self.media[0]
        for words in [], ["check", valid], ["digest"], ["list", valid, valid], ["digest", f"-{valid}"], ["show", ""], ["sample", "0"], ["sample", "007"]:
            self.run((None, USAGE), *words)
        self.run((None, USAGE), "validate", valid, *(["verdicts/empty"] * 65))
        for command in external.WRITERS:
            for more in [], [valid], [valid, "OUT", valid]:
                self.run((None, USAGE), command, *more)
            self.run(("", INPUT_FAULT), command, "valid/not-there.jpg", "OUT")
        for more in [valid], [valid, valid, *(["verdicts/empty"] * 65)]:
            self.run((None, USAGE), "validate-external", *more)
        _, _, names, _ = self.fronts[0]
        for command, given in ("plan-front", names[:2]), ("embed-front", [*names, "OUT"]):
            for more in [], given[:-1], [*given, APPROVING], ["", *given[1:]], [f"-{given[0]}", *given[1:]]:
                self.run((None, USAGE), command, *more)
        _, (media, definition, message, other), _ = self.collects[0]
        for command, given in ("plan-collect", [media, definition, other]), ("embed-collect", [media, definition, message, other, "OUT"]):
            for more in [], given[:-1], [*given, *(["verdicts/empty"] * 65)], ["", *given[1:]], [*given[:-2], "", given[-1]], [f"-{given[0]}", *given[1:]]:
                self.run((None, USAGE), command, *more)
        for command in (*READERS, "questions", "validate"):
            self.run(("", INPUT_FAULT), command, "valid/not-there.jpg")


def has_questions(contents):
    """Whether a file has a store that can be read, whose questions are asked."""
    try:
        return isinstance(contents, bytes) and media_of(contents) is not None and bool(list(questions_of(contents)))
    except Refused:
        return False


def questions_of(contents):
    """The questions of all manifests of a file, reached or not."""
    media = media_of(contents)
    for found in manifests_of(jumbf.read(media.store)):
        question = Read(media.store, found).question()
        if question is not None:
            yield question, None, None


def ending(contents):
    return "mp4" if contents[4:8] == b"ftyp" else "jpg"


def answered(call, *given):
    """Line, status and new file of `plan` or `embed`."""
    try:
        told = call(*given)
    except JudgeFault:
        return "", JUDGE_FAULT, None
    return *builder.line_of(told), told[0] if isinstance(told[0], bytes) else None


# What is written


def page(vectors):
    """The page that says what each file shows."""
    lines = ["# What each vector shows", "", "Written by `tests/real/vectors.py`: not to be edited. [README.md](README.md) says how to read it."]
    for group, title in GROUPS.items():
        rows = [(f"`{name}`", what, line) for name, of, what, line, _ in vectors.media if of == group]
        lines += table(title, ("File", "Shows", "`validate` under `verdicts/judge`"), rows)
    reports = {tuple(run["words"]): run for run in vectors.runs}
    told = lambda *words: reports[words]["report"].split("\n")[0] or f"status {reports[words]['status']}"
    rows = [(f"`{media}` `{kept}`", what, told("validate-external", media, kept, JUDGE)) for what, _, media, kept, *_ in vectors.externals]
    lines += table("External stores", ("Media, store", "Show", "`validate-external` under `verdicts/judge`"), rows)
    rows = [(f"`{run['words'][1]}`", f"`{run['new']}`" if "new" in run else "", run["report"].strip()) for run in vectors.runs if run["words"][:1] in TAKEN and run["report"]]
    lines += table("A store taken out", ("Media", "The new file", "`strip` or `extract`"), rows)
    rows = [(f"`{first}` `{second}`", what, told("compare", first, second, APPROVING)) for what, first, second in vectors.pairs]
    lines += table("Pairs", ("Files", "Show", "`compare` under `verdicts/approving`"), rows)
    rows = [("`" + "` `".join((*names, *each.judges)) + "`", each.what, told("embed", *names, "OUT", *each.judges)) for each, names, _ in vectors.builds]
    lines += table("Builds", ("Media, definition, message, judges", "Show", "`embed`"), rows)
    rows = [("`" + "` `".join(names) + "`", what, said[-1][0]) for what, said, names, _ in vectors.fronts]
    lines += table("Builds with the store in front", ("Media, definition, message", "Show", "`embed-front`"), rows)
    reply = lambda each, names: told("embed-collect", *names, "OUT", *each.judges)
    rows = [("`" + "` `".join((*names, *each.judges)) + "`", each.what, reply(each, names)) for each, names, _ in vectors.collects]
    lines += table("Builds into which another file is collected", ("Media, definition, message, other file, judges", "Show", "`embed-collect`"), rows)
    return "\n".join(lines) + "\n"


def table(title, heads, rows):
    line = lambda cells: f"| {' | '.join(cells)} |"
    return ["", f"## {title}", "", line(heads), line("---" for _ in heads), *(line((name, *map(cell, more))) for name, *more in rows)]


def cell(text):
    text = printable(text)
    return (text if len(text) <= 160 else text[:157] + "..").replace("|", "\\|")


def written():
    """Names and contents of all files."""
    vectors = Vectors()
    files = dict(vectors.files.contents)
    files["runs.jsonl"] = lines_of(vectors.runs)
    files["pieces.jsonl"] = lines_of({"name": name, "pieces": pieces} for name, pieces in vectors.files.pieces.items())
    files["LIST.md"] = page(vectors).encode()
    return files


def lines_of(values):
    return "".join(json.dumps(value, ensure_ascii=False, separators=(",", ":")) + "\n" for value in values).encode()


def there(folder):
    """The files of a folder that aren't written by hand."""
    found = (path.relative_to(folder).as_posix() for path in folder.rglob("*") if path.is_file())
    return {name for name in found if name not in KEPT}


def write(folder):
    files = written()
    for name in there(folder) - set(files):
        (folder / name).unlink()
    for name, contents in files.items():
        path = folder / name
        path.parent.mkdir(parents=True, exist_ok=True)
        path.write_bytes(contents)
    print(f"{len(files)} files, {sum(map(len, files.values()))} bytes, {files['runs.jsonl'].count(bytes([10]))} runs")
    return 0


def check(folder):
    files = written()
    wrong = sorted(name for name in set(files) | there(folder) if not (folder / name).is_file() or files.get(name) != (folder / name).read_bytes())
    for name in wrong:
        print(f"{name} isn't what would be written")
    missing = sorted(unshown(files))
    for name in missing:
        print(f"no vector shows {name}")
    print(f"{len(files)} files, {len(wrong)} differences")
    return 1 if wrong or missing else 0


def unshown(files):
    """The codes of docs/CHECKS.md and the reasons of docs/FORMATS.md that no report tells."""
    reports = files["runs.jsonl"].decode()
    checks = (TOP / "docs" / "CHECKS.md").read_text()
    codes = {code for row in re.findall(r"^\|.*\|$", checks, re.MULTILINE) for code in re.findall(r"`([a-zA-Z]+(?:\.[a-zA-Z]+)+)`", row)}
    codes = {code for code in codes if not code.startswith("c2pa.")}
    reasons = vector_builds.REASONS | {f"build {name}" for name in (*vector_builds.REFUSALS, *vector_fronts.REFUSALS, *vector_collects.REFUSALS)}
    for code in codes:
        if f"failing {code} " not in reports:
            yield code
    reasons |= {f"store {reason}" for reason in vector_external.REASONS} | {"strip Middle"}
    for reason in reasons:
        if f"refused {reason} " not in reports and f'"{reason}' not in reports:
            yield reason


def main():
    command, *folder = sys.argv[1:]
    return {"write": write, "check": check}[command](pathlib.Path(*folder) if folder else PLACE)


if __name__ == "__main__":
    sys.exit(main())
