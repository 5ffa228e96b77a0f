"""The history of a media file: what c2's commands print of it, and from the boxes that `c2 list` places what c2 doesn't print.

The latter are names and titles that the manifests have, and which manifest is whose ingredient. They are read for the picture alone;
whether the file is as it should be is c2's answer.
"""

import json
import mmap
import os
import re
import subprocess
import sys

from cryptography import x509

sys.path.insert(0, os.path.join(os.path.dirname(os.path.abspath(__file__)), "..", "judge"))
import cbor
import questions

URI = "self#jumbf=/c2pa/"
ASSERTIONS = "c2pa.assertions"
SUPERBOX, DESCRIPTION, CBOR = b"jumb", b"jumd", b"cbor"
X5CHAIN = ("uint", 33)
CLAIM_LABELS = "c2pa.claim.v2", "c2pa.claim"
INGREDIENT = re.compile(r"c2pa\.ingredient(\.v[23])?(__[0-9]+)?")
NOTHING = ("map", ())
REPORTS = 0, 1, 2, 3


class NoReport(Exception):
    """A command of c2 ended without a report."""


class Box:
    """A box of the store, as a line of `c2 list` places it."""

    def __init__(self, place, total, kind, label):
        self.place, self.total, self.kind, self.label = place, total, kind, label
        self.children = []

    def child(self, label):
        return next((box for box in self.children if box.kind == SUPERBOX and box.label == label), None)


class Entry:
    """An assertion of a manifest: by the claim's list, by the boxes that are there, or by both."""

    def __init__(self, label, is_listed, size, redacted_by):
        self.label, self.is_listed, self.size, self.redacted_by = label, is_listed, size, redacted_by

    @property
    def remark(self):
        if self.redacted_by is not None:
            return f"redacted by {self.redacted_by}"
        if self.size is None:
            return "not there"
        return f"{self.size:,} bytes" + ("" if self.is_listed else ", not listed")


class Manifest:
    """What is shown of a manifest; numbers count from 1, the oldest."""

    def __init__(self, number, shown):
        self.number, self.label, self.is_update, self.claim = number, shown["label"], shown["update"], shown["claim"]
        self.sizes = {box["label"]: box["size"] for box in shown["boxes"]}
        self.title = self.generator = self.signer = self.verdict = None
        self.entries, self.ingredients, self.is_active, self.is_reached = [], [], False, False

    @property
    def uri(self):
        return masked(URI + self.label)


class History:
    """What a page shows of a media file. Without a store that c2 reads there are no manifests, and the answer says why."""

    def __init__(self, program, media, verdicts):
        self.program, self.media, self.size = program, media, os.path.getsize(media)
        self.answer = self.told("validate", media, *verdicts)
        self.manifests = self.read_manifests()
        self.range = self.read_range() if self.manifests else None
        if self.manifests:
            self.read_verdicts(self.told("questions", media, *verdicts))
            self.read_boxes()
            self.find_entries()

    def told(self, command, *names):
        """The report of a command of c2, without the line feed behind it."""
        done = subprocess.run([self.program, command, *names], stdout=subprocess.PIPE)
        if done.returncode not in REPORTS:
            raise NoReport(f"{self.program} {command} ended with status {done.returncode}")
        return done.stdout.decode("utf-8").removesuffix("\n")

    @property
    def failing(self):
        """Code and URI of the first rule that fails, or None."""
        word, *rest = self.answer.split(" ", 2)
        return tuple(rest) if word == "failing" else None

    @property
    def counts(self):
        """The four numbers of a valid file, or None."""
        word, *pairs = self.answer.split(" ")
        return {name: int(number) for name, number in (pair.split("=") for pair in pairs)} if word == "valid" else None

    def read_manifests(self):
        report = self.told("show", self.media)
        if not report.startswith("{"):
            return []
        return [Manifest(number, shown) for number, shown in enumerate(json.loads(report)["manifests"], 1)]

    def read_range(self):
        """Start and length of the range of the file that has the store."""
        return tuple(map(int, self.told("digest", self.media).split(" ")[:2]))

    def read_verdicts(self, report):
        """The lines of `questions` go from the newest manifest that is reached to the oldest."""
        lines = (line.split(" ", 1)[1].rsplit(" ", 1) for line in report.split("\n"))
        verdicts = {label: verdict for label, verdict in lines}
        self.manifests[-1].is_active = True
        for manifest in self.manifests:
            manifest.is_reached = masked(manifest.label) in verdicts
            manifest.verdict = verdicts.get(masked(manifest.label))

    def read_boxes(self):
        """Titles, names and ingredients, from the contents of boxes."""
        with open(self.media, "rb") as file, mmap.mmap(file.fileno(), 0, access=mmap.ACCESS_READ) as media:
            store = questions.store_of(media)
        root = tree_of(self.told("list", self.media))
        found = {box.label: box for box in root.children if box.kind == SUPERBOX}
        for manifest in self.manifests:
            read_manifest(manifest, found.get(masked(manifest.label), root), store)

    def find_entries(self):
        redacted = {
            uri: manifest.number
            for manifest in self.manifests
            if manifest.is_reached and manifest.claim
            for uri in manifest.claim["redacted"]
        }
        for manifest in self.manifests:
            urls = [entry["url"] for entry in manifest.claim["assertions"]] if manifest.claim else []
            listed = dict.fromkeys(label for label in map(assertion_label, urls) if label is not None)
            for label in dict.fromkeys([*listed, *manifest.sizes]):
                by = redacted.get(f"{URI}{manifest.label}/{ASSERTIONS}/{label}")
                manifest.entries.append(Entry(label, label in listed, manifest.sizes.get(label), by))


def masked(text):
    """A text as c2 prints it in lines: with `?` for each control character."""
    return re.sub(r"[\0-\x1f\x7f]", "?", text)


def assertion_label(url):
    """The label of the assertion that a URL names, relative or not."""
    _, found, label = url.partition(f"{ASSERTIONS}/")
    return label if found else None


def tree_of(report):
    """The root of the boxes that `c2 list` prints, each with those inside it."""
    above = []
    for line in report.split("\n"):
        depth, place, total, kind, label = line.split(" ", 4)
        box = Box(int(place), int(total), bytes.fromhex(kind), label)
        del above[int(depth) - 1 :]
        if above:
            above[-1].children.append(box)
        above.append(box)
    return above[0]


def content_of(box, store):
    """The CBOR item that a box holds; an empty map where it holds none."""
    first = next((child for child in box.children if child.kind != DESCRIPTION), None) if box else None
    if first is None or first.kind != CBOR:
        return NOTHING
    header = 16 if store[first.place : first.place + 4] == b"\0\0\0\1" else 8
    try:
        return cbor.read_whole(store[first.place + header : first.place + first.total])
    except cbor.NotCbor:
        return NOTHING


def read_manifest(manifest, box, store):
    claim = content_of(next(filter(None, map(box.child, CLAIM_LABELS)), None), store)
    manifest.title = text_of(cbor.field(claim, "dc:title"))
    manifest.generator = text_of(cbor.field(cbor.field(claim, "claim_generator_info") or NOTHING, "name"))
    manifest.signer = signer_of(content_of(box.child("c2pa.signature"), store))
    assertions = box.child(ASSERTIONS)
    for child in assertions.children if assertions else ():
        if child.kind == SUPERBOX and INGREDIENT.fullmatch(child.label):
            manifest.ingredients += ingredient_of(content_of(child, store))


def ingredient_of(item):
    """Relationship and label of the manifest that an ingredient names; nothing where it names none."""
    named = cbor.field(item, "activeManifest") or cbor.field(item, "c2pa_manifest") or NOTHING
    uri = text_of(cbor.field(named, "url")) or ""
    if uri.startswith(URI):
        yield text_of(cbor.field(item, "relationship")) or "", uri.removeprefix(URI)


def text_of(item):
    return item[1] if item is not None and item[0] == "text" else None


def signer_of(item):
    """The name in the signer's certificate, which the message of a signature has in header 33 (RFC 9360)."""
    try:
        protected, unprotected, _ = questions.sign1(item)
        headers = [cbor.read_whole(protected) if protected else NOTHING, unprotected]
        pairs = [pair for header in headers if header[0] == "map" for pair in header[1]]
        found = next(value for key, value in pairs if key == X5CHAIN)
        first = found[1][0] if found[0] == "list" else found
        return name_of(x509.load_der_x509_certificate(first[1]).subject)
    except (questions.Unreadable, cbor.NotCbor, StopIteration, IndexError, TypeError, ValueError):
        return None


def name_of(subject):
    """The common name, else the organization, else the whole name."""
    for oid in (x509.NameOID.COMMON_NAME, x509.NameOID.ORGANIZATION_NAME):
        found = subject.get_attributes_for_oid(oid)
        if found:
            return str(found[0].value)
    return subject.rfc4514_string()
