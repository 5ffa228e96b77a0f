#!/usr/bin/env python3
"""Prints a page of HTML with the history of a photograph or a film: who signed it, what it was made of, and whether it is valid.

    history.py [--c2 PROGRAM] MEDIA [VERDICTS..] > PAGE.html

The page is one file without scripts, and loads nothing. It shows the manifests as a graph with their signers, verdicts and redactions,
marks the first rule that fails, and draws how many bytes of the file are covered. What it says is what c2's commands `validate`, `show`,
`questions`, `list` and `digest` print; names and titles are read from the boxes that `list` places.
"""

import argparse
import os
import sys
import xml.etree.ElementTree as ET

import drawing
import reading
from drawing import element, shown
from words import RELATIONSHIPS, VERDICTS, code_in_words

HERE = os.path.dirname(os.path.abspath(__file__))
LONG = 300
# Nothing that a file's texts could bring in would be loaded or run.
POLICY = "default-src 'none'; style-src 'unsafe-inline'"
STYLE = """
body { font: 15px/1.45 sans-serif; margin: 1.5em; color: #111; background: #fff; max-width: 75em }
bdi, code { overflow-wrap: anywhere }
.scroll { overflow-x: auto }
.answer { font-size: 1.2em; border-left: 6px solid #111; padding: .3em .8em }
.answer.bad { border-color: #b00; border-left-style: double }
.bad strong { color: #b00 }
.bytes { list-style: none; padding: 0 }
.bytes svg { vertical-align: middle; margin-right: .6em }
table { border-collapse: collapse }
td, th { border: 1px solid #999; padding: .3em .6em; text-align: left; vertical-align: top }
td ul { margin: 0; padding-left: 1.1em }
svg text { font: 12px "DejaVu Sans Mono", monospace; fill: #111; white-space: pre }
svg .head { font-weight: bold; font-size: 13px }
svg .label { font-size: 11px; fill: #444 }
svg .failing { fill: #b00; font-weight: bold }
svg .redacted { text-decoration: line-through }
svg .remark { font-style: italic }
svg .kind { font-style: italic; stroke: #fff; stroke-width: 4; paint-order: stroke }
.node { fill: #fff; stroke: #333; stroke-width: 1.5 }
.node.update { fill: #f2f2f2 }
.node.unreached { stroke-dasharray: 2 4 }
.node.fails { stroke: #b00; stroke-width: 4 }
.edge { fill: none; stroke: #333; stroke-width: 1.6 }
.edge.component { stroke-dasharray: 7 4 }
.part { stroke: #111 }
.part.covered { fill: #444 }
.part.outside { fill: url(#hatched) }
.part.store { fill: url(#dotted) }
.part.unknown { fill: #fff }
pattern path { stroke: #111; stroke-width: 1.5 }
"""


def page(history):
    """The whole page as text."""
    html = ET.Element("html", lang="en")
    head = element(html, "head")
    element(head, "meta", charset="utf-8")
    head.append(ET.Element("meta", {"http-equiv": "Content-Security-Policy", "content": POLICY}))
    element(head, "title", f"History of {shown(os.path.basename(history.media), LONG)}")
    element(head, "style", STYLE)
    body = element(html, "body")
    element(element(body, "h1", "History of "), "bdi", shown(os.path.basename(history.media), LONG))
    write_answer(body, history)
    if history.manifests:
        write_bytes(body, history)
        write_graph(body, history)
        write_table(body, history)
    write_notes(body)
    return "<!DOCTYPE html>\n" + ET.tostring(html, encoding="unicode", method="html") + "\n"


def write_answer(body, history):
    """What `validate` answers, in words and as c2 prints it."""
    if history.counts:
        said, klass = "✓ Valid: every rule holds, under the verdicts that were given.", "answer"
    elif history.failing:
        said, klass = f"✗ Fails: {code_in_words(history.failing[0])}.", "answer bad"
    elif history.answer == "none":
        said, klass = "– The file has no manifests.", "answer"
    else:
        said, klass = "✗ The file is refused: it is malformed, or larger than c2 reads.", "answer bad"
    element(element(body, "p", klass=klass), "strong", said)
    element(element(body, "p", "c2 validate prints "), "code", shown(history.answer, LONG))


def write_bytes(body, history):
    element(body, "h2", "Bytes of the file")
    parts = drawing.bar(element(body, "div", klass="scroll"), history)
    listed = element(body, "ul", klass="bytes")
    for kind, number, words in parts:
        item = element(listed, "li")
        swatch = element(item, "svg", width=26, height=16, viewBox="0 0 26 16")
        element(swatch, "rect", klass=f"part {kind}", x=1, y=1, width=24, height=14)
        swatch.tail = f"{number:,} bytes ({number / max(1, history.size):.1%}) {words}."


def write_graph(body, history):
    element(body, "h2", "Manifests")
    element(
        body,
        "p",
        "The newest stands at the top. A solid arrow leads to the parent, which is the media that this one was made from; a broken one leads to "
        "a component or an input. A struck-out assertion was redacted: taken out later. A broken border is that of a manifest that c2 reaches from no "
        "newer one, and doesn't check.",
    )
    left_out = drawing.graph(element(body, "div", klass="scroll"), history.manifests, history.failing)
    if left_out:
        element(body, "p", f"{left_out:,} further arrows are left out; the table has them.")


def write_table(body, history):
    """The graph again, for those who don't see it, and whole where it is cut."""
    element(body, "h2", "The same in words")
    table = element(element(body, "div", klass="scroll"), "table")
    row = element(table, "tr")
    for words in ("Manifest", "Signer", "Signature", "Made of", "Assertions"):
        element(row, "th", words, scope="col")
    numbers = {manifest.label: manifest.number for manifest in history.manifests}
    for manifest in reversed(history.manifests):
        write_row(table, manifest, numbers, history.failing)


def write_row(table, manifest, numbers, failing):
    row = element(table, "tr")
    named = element(row, "td", f"{manifest.number}{', an update' * manifest.is_update}{', the newest' * manifest.is_active}: ")
    element(named, "bdi", shown(manifest.label, LONG))
    for word, text in (("title", manifest.title), ("made by", manifest.generator)):
        if text is not None:
            element(element(named, "div", f"{word}: "), "bdi", shown(text, LONG))
    if failing and drawing.belongs(failing[1], manifest):
        element(element(named, "div", klass="bad"), "strong", f"✗ fails: {code_in_words(failing[0])} ({shown(failing[0])})")
    element(element(row, "td"), "bdi", shown(manifest.signer or "no name is given", LONG))
    element(row, "td", " ".join(VERDICTS.get(manifest.verdict, ("?", manifest.verdict))))
    made_of = element(element(row, "td"), "ul")
    for relationship, label in manifest.ingredients:
        element(made_of, "li", f"{RELATIONSHIPS.get(relationship, shown(relationship))}: {numbers.get(label, 'not in the file')}")
    assertions = element(element(row, "td"), "ul")
    for entry in manifest.entries:
        item = element(assertions, "li")
        label = element(item, "del" if entry.redacted_by is not None else "bdi", shown(entry.label, LONG))
        label.tail = f" ({entry.remark})"


def write_notes(body):
    element(body, "h2", "What this page doesn't say")
    element(
        body,
        "p",
        "A signer's name is what the certificate says; whether to trust it is for whoever wrote the verdicts. What an assertion says is its signer's "
        "word: c2 checks that it is what was signed, and not that it is so. The page itself is an example and proved in nothing.",
    )


def main():
    parser = argparse.ArgumentParser(description="Prints a page with the history of a photograph or a film.")
    parser.add_argument("--c2", default=os.path.join(HERE, "..", "..", "c2"), help="the program c2 (the repository's)")
    parser.add_argument("media", metavar="MEDIA")
    parser.add_argument("verdicts", metavar="VERDICTS", nargs="*", help="verdict files, as `c2 validate` takes them")
    given = parser.parse_args()
    try:
        printed = page(reading.History(given.c2, given.media, given.verdicts))
    except (OSError, reading.NoReport) as reason:
        sys.exit(f"history: {reason}")
    sys.stdout.buffer.write(printed.encode("utf-8", "replace"))


if __name__ == "__main__":
    main()
