#!/usr/bin/env python3
"""Signs a photograph or a film by c2: from a key, its certificates and the media to a signed copy.

    sign.py --key KEY.pem --chain CHAIN.pem [OPTIONS] MEDIA OUT

MEDIA is a JPEG or a BMFF file (HEIC, AVIF, MP4, MOV), and OUT the copy that is made of it. Each step is printed as the command that
it is, so it can be typed by hand, or the one with the key on another machine. What the steps write is kept in the folder OUT.steps.
Media that is signed already wants the verdicts on its signatures: --anchors asks the judge of examples/judge for them, and --verdicts
names files that have them. With --anchors the copy is judged and validated at the end. With --front MEDIA is a film without a store,
and that of the copy stands in front, where a reader that takes the film from its beginning finds it. With --collect OTHER the copy
has the history of another signed file besides, which was put into the picture.
"""

import argparse
import os
import shlex
import shutil
import subprocess
import sys

import define

HERE = os.path.dirname(os.path.abspath(__file__))
DONE, NO_STORE = 0, 3
# The verdict files that the judge is asked for, by the options of define.py.
JUDGED = {"--opened": "verdicts", "--placed": "other-verdicts"}
# What c2's statuses mean that a signer may meet, and what to do.
MEANINGS = {
    2: "the media is malformed, or its check fails for what c2 doesn't support",
    5: "a file can't be read",
    6: "a file can't be written: the new one must not be there yet, and the disk not be full",
    7: "a verdict file isn't one",
    8: "out of memory",
    11: 'nothing is built: the line above says why (docs/RULES.md, "What `plan` and `embed` refuse", and behind it what --front and --collect refuse)',
}


def typed(name):
    """A path as somebody would type it here."""
    short = min(os.path.relpath(name), os.path.abspath(name), key=len)
    return short if os.sep in short else os.path.join(".", short)


def own_python():
    """The Python that runs this, by the name under which somebody would type it."""
    common = shutil.which("python3")
    is_common = common is not None and os.path.realpath(common) == os.path.realpath(sys.executable)
    return "python3" if is_common else sys.executable


class Steps:
    """The commands that lead from the media to the signed copy, run one after the other in the folder of the call."""

    def __init__(self, given):
        self.given, self.folder = given, given.out + ".steps"
        self.verdicts = given.verdicts

    def path(self, name):
        return os.path.join(self.folder, name)

    def run(self, *words, into=None, allowed=(DONE,)):
        """Prints a command and runs it as it is printed. Its status; the program ends at one that isn't allowed."""
        line = shlex.join(words) + (f" > {shlex.quote(self.path(into))}" if into else "")
        print("+", line, flush=True)
        status = subprocess.run(["sh", "-c", line]).returncode
        if status not in allowed:
            self.end(words, status, into)
        return status

    def end(self, words, status, into):
        if into:
            with open(self.path(into), encoding="utf-8", errors="replace") as file:
                print(file.read(1000), end="", flush=True)
        of_c2 = words[0] == self.given.c2 and status in MEANINGS
        sys.exit(f"sign: the last command ended with status {status}" + (f": {MEANINGS[status]}" if of_c2 else ""))

    def c2(self, *words, **how):
        return self.run(self.given.c2, *words, **how)

    def python(self, program, *words, **how):
        return self.run(own_python(), typed(os.path.join(HERE, program)), *words, **how)

    def judge(self, media, into):
        """The judge's verdicts; on what it can't read (status 1) it says nothing, and c2 decides what this means."""
        self.python("../judge/judge.py", "--anchors", self.given.anchors, media, into=into, allowed=(0, 1))
        return self.path(into)

    def define(self, *words, into="definition.json"):
        self.python("define.py", "--chain", self.given.chain, *content_words(self.given), *words, into=into)
        return self.path(into)

    def named(self, command):
        """The command of c2 that puts the store where it is wanted, or another file's history into it."""
        return command + ("-front" if self.given.front else "-collect" if self.given.collect else "")

    def others(self):
        """The other file, where there is one."""
        return [self.given.collect] if self.given.collect else []

    def plan(self, definition, into="plan"):
        self.c2(self.named("plan"), self.given.media, definition, *self.others(), *self.verdicts, into=into)
        return self.path(into)

    def sign(self):
        if not os.path.isdir(self.folder):
            os.mkdir(self.folder)
        is_signed = not self.given.front and self.c2("list", self.given.media, into="boxes", allowed=(DONE, NO_STORE)) == DONE
        older = {"--opened": self.given.media} if is_signed else {}
        if self.given.collect:
            older["--placed"] = self.given.collect
        definition = self.define_over(older) if older else self.define()
        plan = self.plan(definition)
        self.python("message.py", "--key", self.given.key, plan, into="message")
        files = self.given.media, definition, self.path("message"), *self.others(), self.given.out
        self.c2(self.named("embed"), *files, *self.verdicts)
        if self.given.anchors:
            self.c2("validate", self.given.out, self.judge(self.given.out, "new-verdicts"))

    def define_over(self, older):
        """The definition over files that are signed already, by the option of each: a first plan tells the digests that references to them need."""
        for option, name in older.items():
            if self.given.anchors:
                self.verdicts = [*self.verdicts, self.judge(name, JUDGED[option])]
            elif not self.verdicts:
                sys.exit(f"sign: {name} is signed already: --anchors or --verdicts is wanted")
        first = self.plan(self.define(into="first.json"), into="first-plan")
        return self.define(*(word for option in older for word in (option, first)))


def content_words(given):
    """The options of the new manifest's contents that were given, as words of a command."""
    defaults = define.content_options().parse_args(["--chain", given.chain])
    for name in define.CONTENT_OPTIONS:
        value = getattr(given, name)
        if value == getattr(defaults, name):
            continue
        for member in map(str, value if isinstance(value, list) else [value]):
            yield from (f"--{name}={member}",) if member.startswith("-") else (f"--{name}", member)


def words():
    parser = argparse.ArgumentParser(
        description="Signs a photograph or a film by c2, and prints each step.", parents=[define.content_options()]
    )
    parser.add_argument("--key", required=True, metavar="KEY.pem", help="the signer's private key")
    parser.add_argument("--anchors", metavar="ANCHORS.pem", help="the certificates that are trusted, for the judge")
    parser.add_argument("--verdicts", action="append", default=[], metavar="FILE", help="a verdict file on the media; any number")
    parser.add_argument("--front", action="store_true", help="put the store in front of the film, which has none yet")
    parser.add_argument("--collect", metavar="OTHER", help="a signed file that was put into the picture; its history comes along")
    parser.add_argument("--c2", default=typed(os.path.join(HERE, "..", "..", "c2")), help="the program c2 (the repository's)")
    parser.add_argument("media", metavar="MEDIA")
    parser.add_argument("out", metavar="OUT")
    given = parser.parse_args()
    if given.front and given.verdicts:
        parser.error("with --front the media has no store, so there are no verdicts on it")
    if given.front and given.collect:
        parser.error("--front and --collect can't be done at once")
    for name in (given.key, given.chain, given.media, *filter(None, [given.anchors, given.collect]), *given.verdicts):
        if not os.path.isfile(name):
            parser.error(f"there is no file {name}")
    if os.path.lexists(given.out):
        parser.error(f"{given.out} is there already, and c2 writes over no file")
    return given


def main():
    try:
        Steps(words()).sign()
    except OSError as reason:
        sys.exit(f"sign: {reason}")


if __name__ == "__main__":
    main()
