#!/usr/bin/env python3
"""Refuses memory to c2 at each of its requests in turn.

    memory.py C2 FILE [VERDICTS]    each command over the file (`compare` over the file and itself, `plan` and `embed` also over a
                                    small JPEG without a store, with a label that the file hasn't, `plan-collect` and `embed-collect` of
                                    the file into that JPEG and into itself, `plan-front` and `embed-front` over small films alone)
    memory.py C2                    `validate`, `compare`, `plan`, `embed`, `strip`, `extract`, `validate-external`, `plan-front`,
                                    `embed-front`, `plan-collect` and `embed-collect` over small files that are made here: built once and twice, and pairs of different
                                    files, of which one is evidence
    memory.py --rows C2_ROWS        `compare` over pairs that differ under the sum of their bytes, by the program of crates/c2_test_rows

Each is run first with all the memory that it asks for, then with its first request refused, its second, and so on until a run ends as
the first did. A run to which memory was refused says so by its status, 8, and has printed nothing or the begin of its report; or it
prints the whole report, where it could go on. The new file of `embed`, `embed-front`, `embed-collect`, `strip` and `extract` isn't there then or is empty, since memory is taken
before it is begun; or it is whole, where the line of the report alone had no memory. The requests are those to malloc, calloc and realloc of the C
library. What the whole runs over the files that are made here come to is that of store.py, pairs.py, builder.py, external.py, front.py and collect.py.
"""
import os
import re
import subprocess
import sys
import tempfile

import builder
import collect
import compare_rows
import external
import front
import pairs
import store
import tables
from front_rows import QUESTIONED, co64, film, stco
from rule_rows import verdicts_on
from told import write
from worked_builds import DEFINITION, FILM, LATER_DEFINITION, MESSAGE, SMALL

OTHER = re.sub(rb"urn:c2pa:[-0-9a-f]+", b"urn:c2pa:99999999-2222-4333-8444-555555555555", DEFINITION)

OUT_OF_MEMORY = 8
MOST_REQUESTS = 200_000

# A library that stands before the C library's: it counts requests, and refuses that of the number REFUSED, from 1.
SHIM = r"""
#define _GNU_SOURCE
#include <dlfcn.h>
#include <errno.h>
#include <stdlib.h>
static long count, refused = -1;
static void *(*real_malloc)(size_t);
static void *(*real_realloc)(void *, size_t);
static void *(*real_calloc)(size_t, size_t);
static char first[4096];
static size_t taken;
static int told;
__attribute__((constructor)) static void begin(void) {
    char *number = getenv("REFUSED");
    real_malloc = dlsym(RTLD_NEXT, "malloc");
    real_realloc = dlsym(RTLD_NEXT, "realloc");
    real_calloc = dlsym(RTLD_NEXT, "calloc");
    refused = number ? atol(number) : -1;
    told = 1;
}
static int is_refused(void) { return told && ++count == refused; }
void *malloc(size_t size) {
    if (!real_malloc) real_malloc = dlsym(RTLD_NEXT, "malloc");
    if (is_refused()) { errno = ENOMEM; return 0; }
    return real_malloc(size);
}
void *realloc(void *old, size_t size) {
    if (!real_realloc) real_realloc = dlsym(RTLD_NEXT, "realloc");
    if (is_refused()) { errno = ENOMEM; return 0; }
    return real_realloc(old, size);
}
void *calloc(size_t number, size_t size) {
    if (!real_calloc) { void *part = first + taken; taken += number * size; return part; }
    if (is_refused()) { errno = ENOMEM; return 0; }
    return real_calloc(number, size);
}
"""


def built(directory):
    """The shim as a shared library."""
    source, library = os.path.join(directory, "refuse.c"), os.path.join(directory, "refuse.so")
    with open(source, "w", encoding="utf-8") as file:
        file.write(SHIM)
    subprocess.run(["gcc", "-shared", "-fPIC", "-O1", "-o", library, source, "-ldl"], check=True)
    return library


def contents_of(name):
    """The bytes of a file; none where it isn't there."""
    if not name or not os.path.exists(name):
        return b""
    with open(name, "rb") as file:
        return file.read()


def run(library, words, refused, out=None):
    """Status, report, errors and new file of a run to which the request of this number is refused; of none, where it is 0."""
    if out and os.path.exists(out):
        os.remove(out)
    surroundings = dict(os.environ, LD_PRELOAD=library, REFUSED=str(refused))
    done = subprocess.run(words, env=surroundings, stdout=subprocess.PIPE, stderr=subprocess.PIPE, check=False)
    return done.returncode, done.stdout, done.stderr, contents_of(out)


def is_short(whole, got):
    """Whether a run that had too little memory left what it may: the begin of a report, and no new file or a whole one."""
    _, report, errors, file = got
    return not errors and whole[1].startswith(report) and file in (b"", whole[3])


def refused_in_turn(library, words, out, known):
    """How many requests were refused, from which on the run is whole, what was wrong, and how often the new file was whole though. Where it is
    known what the whole run comes to, that is looked at too."""
    whole = run(library, words, 0, out)
    wrong, short, files = [], 0, 0
    if known is not None and (whole[1].decode(), whole[0], whole[3]) != known:
        wrong.append((0, whole[0], whole[1][:60], len(whole[3])))
    for number in range(1, MOST_REQUESTS):
        got = run(library, words, number, out)
        if got[0] == OUT_OF_MEMORY:
            short += 1
            files += bool(got[3])
            if not is_short(whole, got):
                wrong.append((number, got[0], got[1][:60], len(got[3])))
        elif got != whole:
            wrong.append((number, got[0], got[1][:60], len(got[3])))
        else:
            after = [run(library, words, number + more, out) for more in (1, 2, 3, 50)]
            if all(one == whole for one in after):
                return short, number, wrong, files
    return short, MOST_REQUESTS, wrong, files


def commands(file, verdicts, directory):
    """What is run over a file: what it shows, the words of each command, the name of its new file, and that it isn't known what it comes to."""
    for command in "digest", "list", "show":
        yield command, [command, file], None, None
    for command in "questions", "validate":
        yield command, [command, file, *verdicts], None, None
    yield "compare", ["compare", file, file, *verdicts], None, None
    yield "sample", ["sample", "1"], None, None
    names = [written(directory, *each) for each in (("media", SMALL), ("definition", OTHER), ("message", MESSAGE))]
    out = os.path.join(directory, "out")
    yield "plan", ["plan", *names[:2], *verdicts], None, None
    yield "embed", ["embed", *names, out, *verdicts], out, None
    yield "plan over the file", ["plan", file, names[1], *verdicts], None, None
    yield "embed over the file", ["embed", file, *names[1:], out, *verdicts], out, None
    for command in external.WRITERS:
        yield command, [command, file, out], out, None
    yield from in_front(directory, OTHER)
    for what, media in ("the file", names[0]), ("the file and itself", file):
        yield f"plan-collect, {what}", ["plan-collect", media, names[1], file, *verdicts], None, None
        yield f"embed-collect, {what}", ["embed-collect", media, *names[1:], file, out, *verdicts], out, None
    beside = written(directory, "store", external.answer("extract", contents_of(file))[2] or b"")
    yield "validate-external", ["validate-external", file, beside, *verdicts], None, None


# Films with one chunk table, with two of which one is wide, and with one whose place can't be moved.
FILMS = {"a film": QUESTIONED, "a film of two tables": film(stco(16, 24, 2**31), co64(2**32)), "a film that is refused": film(stco(2**32 - 1))}


def in_front(directory, definition):
    """The two commands that put a store in front, over films: each with what it comes to."""
    out = os.path.join(directory, "out")
    for what, media in FILMS.items():
        files = media, definition, MESSAGE
        names = [written(directory, f"{what}-{name}", each) for name, each in zip(("media", "definition", "message"), files)]
        yield f"plan-front, {what}", ["plan-front", *names[:2]], None, known_of(front.plan(*files[:2]))
        yield f"embed-front, {what}", ["embed-front", *names, out], out, known_of(front.embed(*files))


def known_of(made):
    """Report, status and new file of what an independent program made."""
    line, status = builder.line_of(made)
    return line + "\n", status, made[0] if isinstance(made[0], bytes) else b""


def written(directory, name, contents):
    """The name of a new file with these contents."""
    path = os.path.join(directory, name)
    write(path, contents)
    return path


class Small:
    """Small files, each with a verdict file that approves all questions of them."""

    def __init__(self, directory):
        self.directory, self.out = directory, os.path.join(directory, "out")
        self.first = builder.embed(SMALL, DEFINITION, MESSAGE)[0]
        self.twice = builder.embed(self.first, LATER_DEFINITION, MESSAGE, [verdicts_on(self.first)])[0]
        self.film = builder.embed(FILM, DEFINITION, MESSAGE)[0]

    def judge(self, *files):
        """The verdicts on the questions of some files, and the name of their file."""
        known = {identity: "approved" for contents in files for identity in verdicts_on(contents)}
        rows = "".join(f"{identity} {word}\n" for identity, word in known.items())
        return known, written(self.directory, "verdicts", rows.encode())

    def commands(self):
        """What is run: what it shows, its words, the name of its new file, and what it comes to: the report, the status and the new file."""
        for what, contents in ("a built file", self.first), ("a file built twice", self.twice):
            yield self.validated(what, contents)
        given = {what: files for what, _, *files, _ in compare_rows.rows() if what in ("other notes under SHA-256", "other titles under one signature")}
        for what, files in {"a file and itself": [self.twice] * 2, "built once and twice": [self.first, self.twice], **given}.items():
            yield self.compared(what, *files)
        for what, media, definition in ("a small JPEG", SMALL, DEFINITION), ("a built file", self.first, LATER_DEFINITION):
            yield from self.builds(what, media, definition)
        for what, contents in {"a built file": self.first, "a built film": self.film}.items():
            yield from self.taken(what, contents)
            yield self.validated_externally(what, contents)
        yield from in_front(self.directory, DEFINITION)
        other = builder.embed(FILM, OTHER, MESSAGE)[0]
        collected = {"a built file": (SMALL, self.first), "itself": (self.first, self.first), "a film": (self.first, other), "no store": (SMALL, SMALL)}
        for what, files in collected.items():
            yield from self.collects(what, *files)

    def validated(self, what, contents):
        known, verdicts = self.judge(contents)
        line, status = store.report("validate", contents, [known])
        words = ["validate", written(self.directory, "media", contents), verdicts]
        return f"validate, {what}", words, None, (line + "\n", status, b"")

    def taken(self, what, contents):
        for command in external.WRITERS:
            line, status, out = external.answer(command, contents)
            words = [command, written(self.directory, "media", contents), self.out]
            yield f"{command}, {what}", words, self.out, (line + "\n", status, out)

    def validated_externally(self, what, contents):
        """The store of a file in a file of its own beside it."""
        known, verdicts = self.judge(contents)
        beside = external.answer("extract", contents)[2]
        line, status, _ = external.answer("validate-external", contents, lambda: beside, [known])
        words = ["validate-external", written(self.directory, "media", contents), written(self.directory, "store", beside), verdicts]
        return f"validate-external, {what}", words, None, (line + "\n", status, b"")

    def compared(self, what, first, second):
        known, verdicts = self.judge(first, second)
        text, status = pairs.compared(first, second, [known])
        words = ["compare", written(self.directory, "media", first), written(self.directory, "other", second), verdicts]
        return f"compare, {what}", words, None, (text + "\n", status, b"")

    def builds(self, what, media, definition):
        known, verdicts = self.judge(media) if media != SMALL else self.judge()
        files = media, definition, MESSAGE
        names = [written(self.directory, *each) for each in zip(("media", "definition", "message"), files)]
        line, status = builder.line_of(builder.plan(*files[:2], [known]))
        yield f"plan, {what}", ["plan", *names[:2], verdicts], None, (line + "\n", status, b"")
        made = builder.embed(*files, [known])
        line, status = builder.line_of(made)
        yield f"embed, {what}", ["embed", *names, self.out, verdicts], self.out, (line + "\n", status, made[0])

    def collects(self, what, media, other):
        known, verdicts = self.judge(*(contents for contents in (media, other) if contents != SMALL))
        files = {"media": media, "definition": LATER_DEFINITION, "message": MESSAGE, "other": other}
        media_name, definition, message, other_name = (written(self.directory, *each) for each in files.items())
        planned = collect.plan(media, LATER_DEFINITION, other, [known])
        yield f"plan-collect, {what}", ["plan-collect", media_name, definition, other_name, verdicts], None, known_of(planned)
        made = collect.embed(media, LATER_DEFINITION, MESSAGE, other, [known])
        words = ["embed-collect", media_name, definition, message, other_name, self.out, verdicts]
        yield f"embed-collect, {what}", words, self.out, known_of(made)


# Pairs of compare_rows.py whose difference is evidence under the sum.
WEAK = "other notes under one sum", "swapped bytes of the picture"
# What the program of the rows says where it can't read its table, or a file of it.
AROUND = re.compile(rb": (?:can't be read$|(?:NoMemory|BadLine) at )", re.MULTILINE)
GOT = re.compile(r".*, got 8 (?:nothing|(?P<report>.*), cut|(?P<lines>.*)), not finished, asked \d+ in pieces of .*")


def weak_rows(library, program, directory):
    """What memory is refused to while a row of a pair is run: how often the run says so, and how often the program of the rows has too little for
    itself."""
    for what, *row in compare_rows.run_rows():
        if what not in WEAK:
            continue
        given = tables.settings(words="compare P Q V", judges="approved", room="10000", pieces="65536")
        table = written(directory, "rows", (given + compare_rows.pair_row(what, *row)).encode())
        yield what, *told_by_row(library, [program, table], " / ".join(row[4]))


def told_by_row(library, words, wanted):
    """The same of one row, and what was wrong."""
    held = run(library, words, 0)
    short, outside, wrong = 0, 0, [] if held[0] == 0 else [(0, held[1][-200:])]
    for number in range(1, MOST_REQUESTS):
        status, printed, errors, _ = run(library, words, number)
        found = GOT.fullmatch(printed.decode().split("\n")[0])
        if found:
            short += 1
            part = found["report"] or found["lines"] or ""
            wrong += [] if wanted.startswith(part) else [(number, printed[-200:])]
        elif status and not errors and (not printed or AROUND.search(printed)):
            outside += 1
        elif (status, printed) != held[:2]:
            wrong.append((number, status, printed[-200:]))
        elif all(run(library, words, number + more)[:2] == held[:2] for more in (1, 2, 3, 50)):
            return short, outside, wrong
    return short, outside, [*wrong, "no run with all memory"]


def tell_rows(program):
    with tempfile.TemporaryDirectory() as directory:
        failed = False
        for what, short, outside, wrong in weak_rows(built(directory), os.path.abspath(program), directory):
            print(f"compare, {what}: {short} requests refused are told by status 8, {outside} were those of the program around it, {len(wrong)} wrong")
            for one in wrong[:5]:
                print("   ", one)
            failed = failed or bool(wrong) or short == 0
    sys.exit(failed)


def main():
    program, *given = sys.argv[1:]
    if program == "--rows":
        tell_rows(*given)
    failed = False
    with tempfile.TemporaryDirectory() as directory:
        library = built(directory)
        for what, words, out, known in commands(given[0], given[1:], directory) if given else Small(directory).commands():
            short, last, wrong, files = refused_in_turn(library, [os.path.abspath(program), *words], out, known)
            whole = f", {files} of them behind a whole new file" if out else ""
            print(f"{what}: {short} requests refused are told by status 8{whole}, the run is whole from {last} on, {len(wrong)} wrong", flush=True)
            for one in wrong[:5]:
                print("   ", one)
            failed = failed or bool(wrong) or short == 0
    sys.exit(failed)


if __name__ == "__main__":
    main()
