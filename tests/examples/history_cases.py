#!/usr/bin/env python3
"""The page of examples/history over files that are made for it: what it says, and that nothing of a file becomes markup.

    history_cases.py [C2 [FOLDER]]      runs the example with C2 (the repository's ./c2); keeps the pages in FOLDER, to be looked at

The stores are written by tests/real/drafts.py. Their signatures are no real ones: a verdict file approves what is asked.
"""

import html.parser
import os
import re
import subprocess
import sys
import tempfile
import unittest

HERE = os.path.dirname(os.path.abspath(__file__))
TOP = os.path.join(HERE, "..", "..")
sys.path[:0] = [os.path.join(HERE, "..", "real"), os.path.join(TOP, "examples", "history")]
from drafts import APP0, Assertion, DataHash, Ingredient, Jpeg, Manifest
from make_store import text
from words import CODES, VERDICTS

C2 = os.path.abspath(sys.argv[1] if len(sys.argv) > 1 else os.path.join(TOP, "c2"))
KEPT = os.path.abspath(sys.argv[2]) if len(sys.argv) > 2 else None
HOSTILE = (
    "<script>alert(1)</script>",
    '"><img src=x onerror=alert(1)>',
    "</text></svg></style><b>",
    "&lt;i&gt;\u202egnp.exe",
    "\u0085\u2028 x approved",
)
# What a page may be made of.
TAGS = set(
    "html head meta title style body h1 h2 p strong code bdi div del ul li table tr th td svg defs marker path pattern rect text".split()
)
URI = "self#jumbf=/c2pa/"


class Page(html.parser.HTMLParser):
    """The tags, the attributes and the texts of a page; a text by the class of the element that it stands in."""

    def __init__(self, contents):
        super().__init__()
        self.tags, self.attributes, self.texts, self.inside = set(), set(), [], None
        self.feed(contents)

    def handle_starttag(self, tag, attributes):
        self.tags.add(tag)
        self.attributes |= {name for name, _ in attributes}
        self.inside = dict(attributes).get("class", tag)

    def handle_endtag(self, tag):
        self.inside = None

    def handle_data(self, data):
        self.texts.append((self.inside, data))

    def of(self, inside):
        return [data for kind, data in self.texts if kind == inside]


def diamond():
    """Four manifests: the newest is made of two components, of which both have the oldest as parent; one of them redacts its note."""
    note = Assertion("org.example.note", b"\x61x")
    oldest = Manifest("oldest", Assertion("c2pa.actions.v2"), note, DataHash())
    oldest.claim_fields = {"dc:title": text("A tree")}
    left = Manifest("left", DataHash(), Ingredient("oldest", "parentOf"))
    right = Manifest("right", Ingredient("oldest", "parentOf"), update=True)
    newest = Manifest(
        "newest",
        DataHash(),
        Ingredient("left"),
        Ingredient("right", label="c2pa.ingredient.v3__1"),
        Ingredient("oldest", "inputTo", label="c2pa.ingredient.v3__2"),
    )
    left.redactions, note.is_there = [f"{URI}oldest/c2pa.assertions/org.example.note"], False
    return [oldest, right, Manifest("forgotten", DataHash()), left, newest]


def hostile():
    """Labels and titles that would be markup, or would break lines."""
    first, *others = HOSTILE
    parent = Manifest(first.replace("/", "|"), *(Assertion(label.replace("/", "|"), b"\x61x") for label in HOSTILE), DataHash())
    parent.claim_fields = {"dc:title": text(first)}
    last = Manifest(others[0], DataHash(), Ingredient(parent.label, first))
    last.claim_fields = {"dc:title": text("".join(HOSTILE)), "claim_generator_info": b"\xa1\x64name" + text(first)}
    last.redactions = [first]
    return [parent, last]


class Pages(unittest.TestCase):
    maxDiff = None

    def setUp(self):
        self.folder = tempfile.TemporaryDirectory()
        self.addCleanup(self.folder.cleanup)

    def write(self, name, contents):
        path = os.path.join(self.folder.name, name)
        with open(path, "wb") as file:
            file.write(contents)
        return path

    def run_over(self, media, *verdicts):
        program = os.path.join(TOP, "examples", "history", "history.py")
        return subprocess.run([sys.executable, program, "--c2", C2, media, *verdicts], capture_output=True)

    def page(self, name, media, change=lambda verdicts: verdicts):
        """The page over a file whose every question is approved, but for what is changed of that."""
        path = self.write(f"{name}.jpg", media)
        asked = subprocess.run([C2, "questions", path], capture_output=True).stdout.decode().split("\n")
        verdicts = {line.split(" ")[0]: "approved" for line in asked if line.endswith(" silent")}
        rows = "".join(f"{question} {word}\n" for question, word in change(verdicts).items())
        done = self.run_over(path, self.write("verdicts", rows.encode()))
        self.assertEqual((done.returncode, done.stderr), (0, b""))
        if KEPT:
            os.makedirs(KEPT, exist_ok=True)
            with open(os.path.join(KEPT, f"{name}.html"), "wb") as file:
                file.write(done.stdout)
        page = Page(done.stdout.decode())
        self.assertLessEqual(page.tags, TAGS)
        self.assertNotIn("url(http", done.stdout.decode())
        self.assertFalse(
            [name for name in page.attributes if name.startswith("on") or name in ("href", "src", "style", "xlink:href")]
        )
        return page

    def test_a_valid_diamond(self):
        page = self.page("diamond", Jpeg(b"\xff\xd8" + APP0).file(diamond()))
        self.assertEqual(page.of("strong"), ["✓ Valid: every rule holds, under the verdicts that were given."])
        self.assertEqual(sorted(page.of("kind")), ["component", "component", "input", "parent", "parent"])
        self.assertEqual(page.of("redacted"), ["org.example.note"])
        self.assertEqual(page.of("del"), ["org.example.note"])
        self.assertEqual(page.of("remark"), ["redacted by 4"])
        self.assertEqual(
            page.of("head"), ["Manifest 1", "Manifest 2 · update", "Manifest 3 · not reached", "Manifest 4", "Manifest 5 · newest"]
        )
        self.assertEqual(page.of("verdict").count("✓ the judges approve the signature"), 4)
        self.assertIn("Title: A tree", page.of("plain"))
        self.assertIn("parent: 1", page.of("li"))

    def test_the_rule_that_fails_is_marked_where_it_fails(self):
        store = diamond()
        store[0].assertions[0].hashed = bytes(32)
        page = self.page("failing", Jpeg().file(store))
        self.assertEqual(page.of("strong")[0], "✗ Fails: the assertion was changed after it was signed.")
        marked = (
            "✗ FAILS: the assertion was changed after it was signed (assertion.hashedURI.mismatch) ✗ c2pa.actions.v2 (50 bytes)"
        )
        self.assertEqual(" ".join(page.of("failing")), marked)

    def test_a_signature_that_is_not_approved(self):
        page = self.page("untrusted", Jpeg().file(diamond()), lambda verdicts: {question: "untrusted" for question in verdicts})
        self.assertEqual(page.of("verdict").count("✗ the judges don't trust the signer"), 4)
        self.assertIn("the signer's certificate leads to nobody who is trusted", page.of("strong")[0])

    def test_texts_of_a_file_stay_texts(self):
        page = self.page("hostile", Jpeg().file(hostile()))
        seen = "".join(data for _, data in page.texts)
        for words in (
            "<script>alert(1)<|script>",
            '"><img src=x onerror=alert(1)>',
            "<|text><|svg><|style><b>",
            "&lt;i&gt;\\u{202e}gnp.exe",
            "\\u{85}\\u{2028}",
        ):
            self.assertIn(words, seen)

    def test_files_without_manifests(self):
        self.assertEqual(self.page("none", b"\xff\xd8\xff\xd9").of("strong"), ["– The file has no manifests."])
        self.assertEqual(
            self.page("cut", b"\xff\xd8").of("strong"), ["✗ The file is refused: it is malformed, or larger than c2 reads."]
        )
        done = self.run_over(os.path.join(self.folder.name, "absent"))
        self.assertEqual((done.returncode, done.stdout), (1, b""))

    def test_each_code_has_words(self):
        with open(os.path.join(TOP, "docs", "CHECKS.md"), encoding="utf-8") as file:
            rows = [line for line in file if line.startswith("|") or line.startswith("First:")]
        named = {code for row in rows for code in re.findall(r"`((?:[a-zA-Z]+\.){1,2}[a-zA-Z]+)`", row)}
        codes = {code for code in named if not code.startswith("c2pa.")}
        self.assertEqual(codes, set(CODES))
        self.assertEqual({"approved", "mismatch", "untrusted", "invalid", "silent", "none", None}, set(VERDICTS))


if __name__ == "__main__":
    unittest.main(argv=sys.argv[:1])
