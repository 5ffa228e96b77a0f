#!/usr/bin/env python3
"""Tables of rows for crates/c2_test_rows, of files that are drawn at random, with what the independent programs say of each.

    chance_rows.py FOLDER COUNT [SEED [KIND]]      writes FOLDER/1.rows, FOLDER/2.rows and so on for COUNT files

KIND is `fresh`, `signed` or `film` for builds as chance_builds.py draws them, or `all` (the default) for each by turns. A row has what `embed`
says and the new file's length and digest, and how often each judge was asked; the next has what `plan` says. Each new file must be as
chance_builds.py wants it, or it is told. With `stores` or `film stores` the rows have what `show`, `questions` and `validate` say of files as
validate.py draws them, with `pairs` what `compare` says of pairs as chance_pairs.py draws them, and with `collects` what `embed-collect` and
`plan-collect` say of pairs as chance_collects.py draws them. Prints how often each answer of `embed`, `validate`, `compare` or `embed-collect` came. In the folder of that crate `rt try` runs the tables:

    rt try --data 1.rows=FOLDER/1.rows --data 2.rows=FOLDER/2.rows -- 1.rows 2.rows
"""

import pathlib
import random
import sys
from collections import Counter

import chance_collects
import collect
import collect_rows
import hashing
import pairs
from builder import embed, line_of, plan
from build_rows import judge_named
from build_tables import Lines, new_file, told
from chance_builds import DRAWN, KINDS, drawn_definition, drawn_message, kind_of, manifests_in, questions_in, wrong_in
from chance_pairs import drawn_pair
from chance_pairs import kind_of_answer as kind_of_comparison
from chance_stores import changed_file, drawn_file, verdict_files
from compare_rows import asked_of
from store import JUDGE_FAULT, JudgeFault, report, verdicts_in
from tables import Approving
from told import tell
from validate import kind_of_answer

# The most bytes of a table, less what a row may have.
LONGEST_TABLE = 3_000_000


class Listed(dict):
    """A verdict file as a judge who counts what he is asked."""

    asked = 0

    def __contains__(self, identity):
        self.asked += 1
        return super().__contains__(identity)


def judge_of(rows):
    """A judge by the contents of a verdict file; one that can't be read fails at each question."""
    verdicts = None if rows is None else verdicts_in(rows)
    return judge_named("broken") if verdicts is None else Listed(verdicts)


def judge_text(rows):
    return "broken" if rows is None or verdicts_in(rows) is None else f"list:{rows.hex()}"


class Call:
    """What a call of the independent program comes to under judges."""

    def __init__(self, call, files, rows):
        judges = [judge_of(each) for each in rows]
        try:
            self.made = call(*files, judges)
            line, status = line_of(self.made)
        except JudgeFault:
            self.made, line, status = ("a judge's fault",), "", JUDGE_FAULT
        self.file = self.made[0] if isinstance(self.made[0], bytes) else None
        self.text = told((status, line), [judge.asked for judge in judges])
        self.text += new_file(self.file) if self.file is not None else ""


def put(lines, chance, files, rows):
    """Appends a row for `embed` and one for `plan`, and gives what both come to."""
    built, planned = Call(embed, files, rows), Call(plan, files[:2], rows)
    names = " V" * len(rows)
    lines.set(judges=" ".join(map(judge_text, rows)), out=len(built.file or b"") or "none", pieces=chance.choice(("65536", "65536/7", "1009")))
    lines.set(words="embed J X G OUT" + names)
    lines.row(built.text, *(file.hex() for file in files))
    lines.set(words="plan J X" + names)
    lines.row(planned.text, *(file.hex() for file in files[:2]))
    return built, planned


def put_read(lines, contents, rows):
    """Appends a row for each command that reads a file, and gives what `validate` says."""
    for command in "show", "questions", "validate":
        judges = [judge_of(each) for each in rows] if command != "show" else []
        try:
            line, status = report(command, contents, judges)
        except JudgeFault:
            line, status = "", JUDGE_FAULT
        lines.set(judges=" ".join(map(judge_text, rows)) if judges else "", words=f"{command} P" + " V" * len(judges))
        lines.row(told((status, line.replace("\n", " / ")), [judge.asked for judge in judges]), contents.hex())
    return line, status


def put_pair(lines, first, second):
    """Appends a row for `compare`, under the sum, and gives what it says."""
    line, status = pairs.compared(first, second, [Approving()])
    lines.row(told((status, line.replace("\n", " / ")), [asked_of(first, second)]), first.hex(), second.hex())
    return line


def put_collect(lines, chance, files, rows):
    """Appends a row for `embed-collect` and one for `plan-collect`, whose third file isn't due, and gives the line and status of the former."""
    media, definition, _, other = files
    built, planned = Call(collect.embed, files, rows), Call(collect.plan, (media, definition, other), rows)
    names = " V" * len(rows)
    lines.set(judges=" ".join(map(judge_text, rows)), out=len(built.file or b"") or "none", pieces=chance.choice(("65536", "65536/7", "1009")))
    for words, call, fault in ("embed-collect J X G O OUT", built, "third 0"), ("plan-collect J X O", planned, "third 1"):
        lines.set(words=words + names, fault=fault)
        lines.row(call.text, *(file.hex() for file in files))
    return built.made


class Tables:
    """The tables of a folder, one after the other."""

    def __init__(self, folder):
        self.folder, self.count, self.lines = pathlib.Path(folder), 0, None
        self.begin()

    def begin(self):
        self.lines = Lines("Files that are drawn at random.")
        self.lines.set(room=1_000_000)

    def end(self):
        self.count += 1
        self.folder.mkdir(parents=True, exist_ok=True)
        (self.folder / f"{self.count}.rows").write_text(self.lines.text)
        self.begin()


    def put(self, write, *given):
        """Writes rows into the table that is open, and begins the next where it is long."""
        made = write(self.lines, *given)
        if len(self.lines.text) > LONGEST_TABLE:
            self.end()
        return made


def read_stores(written, chance, count, is_bmff=False):
    answers = Counter()
    for number in range(count):
        contents = drawn_file(chance, is_bmff)
        if number % 3 == 2:
            contents = changed_file(chance, contents)
        written.lines.set(pieces=chance.choice(("65536", "1009")))
        line, status = written.put(put_read, contents, verdict_files(chance, questions_in(contents)))
        answers[kind_of_answer(line.encode(), status)] += 1
    return answers


def read_films(written, chance, count):
    return read_stores(written, chance, count, True)


def compare_pairs(written, chance, count):
    hashing.choose("weak")
    answers = Counter()
    for _ in range(count):
        written.lines.set(words="compare P Q V", hash="weak", judges="approved", pieces=chance.choice(("65536", "1009/7")))
        answers[kind_of_comparison(written.put(put_pair, *drawn_pair(chance)))] += 1
    return answers


def collect_files(written, chance, count):
    answers, files = Counter(), []
    for number in range(count):
        if number % chance_collects.PAIRS == 0:
            files = chance_collects.family(chance)
        given = chance_collects.drawn_pair(chance, files)
        made = written.put(put_collect, chance, given, chance_collects.verdicts_for(chance, (given[0], given[3])))
        answers["a judge's fault" if made[0] == "a judge's fault" else collect_rows.kind_of(*line_of(made))] += 1
    return answers


READ = {"stores": read_stores, "film stores": read_films, "pairs": compare_pairs, "collects": collect_files}


def main():
    folder, count, *more = sys.argv[1:]
    chance = random.Random(int(more[0]) if more else 1)
    if more[1:] and more[1] in READ:
        written = Tables(folder)
        answers = READ[more[1]](written, chance, int(count))
        written.end()
        tell(answers, f"{count} files in {written.count} tables", 0)
    kinds = KINDS if more[1:] in ([], ["all"]) else more[1:]
    written, answers, wrong, chain = Tables(folder), Counter(), 0, None
    for number in range(int(count)):
        kind = kinds[number % len(kinds)]
        # now and then the file that was built last is signed again
        media = chain if chain and kind != "fresh" and chance.random() < 0.3 else DRAWN[kind](chance)
        message, said = drawn_message(chance)
        definition = drawn_definition(chance, manifests_in(media), said)
        built, planned = put(written.lines, chance, (media, definition, message), verdict_files(chance, questions_in(media)))
        answers[kind_of(built.made)] += 1
        for each in wrong_in(media, built.made, planned.made) if built.file is not None else ():
            print(f"build {number}: {each}")
            wrong += 1
        chain = built.file if built.file is not None and len(built.file) < 20_000 else None
        if len(written.lines.text) > LONGEST_TABLE:
            written.end()
    written.end()
    tell(answers, f"{count} builds in {written.count} tables, {wrong} differences", wrong)


if __name__ == "__main__":
    main()
