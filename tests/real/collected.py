"""What a file must be that was built over a media file with the history of another one, looked at apart from collect.py: the older stores are compared
manifest by manifest with the new one.

Nothing here was taken from c2's own code.
"""

import hashing
import jumbf
from builder import line_of
from front_rows import signed_bytes
from locate import Refused
from manifests import read_uri
from media import kept_of, media_of, without
from rules import CheckList
from store import report
from tables import Approving


class History:
    """The manifests of a file's store by their labels, none where there is no store, and the labels of those that are reached."""

    def __init__(self, contents):
        self.contents, media = contents, media_of(contents)
        self.store, self.manifests, self.reached, self.others = b"", [], [], []
        if media is not None:
            self.store, root = media.store, jumbf.read(media.store)
            chain = CheckList(self.store, root, None)
            self.manifests, self.reached = chain.manifests, [chain.manifests[at].label for at in chain.reached]
            self.others = [self.bytes_of(box) for box in root.children[1:] if not box.is_super()]

    def labels(self):
        return [manifest.label for manifest in self.manifests]

    def bytes_of(self, box):
        return self.store[box.start : box.end]

    def manifest(self, label):
        return next(manifest for manifest in self.manifests if manifest.label == label)

    def questions(self):
        """The lines of `questions`, by the labels in them."""
        lines = report("questions", self.contents, [Approving()])[0].split("\n") if self.manifests else []
        return {line.split(" ", 1)[1].rsplit(" ", 1)[0]: line for line in lines}



def carried_labels(media, other):
    """The labels of the older manifests of a new store, in their order."""
    ours = media.labels()
    return ours + [label for label in other.labels() if label in other.reached and label not in ours]


def clash_of(media, other):
    """The first label, in the order of the other store, at which two stores clash; or None."""
    for label in other.labels():
        if label not in other.reached or label not in media.labels():
            continue
        ours, theirs = media.bytes_of(media.manifest(label).box), other.bytes_of(other.manifest(label).box)
        if label not in media.reached or ours != theirs:
            return label
    return None


def parts_of(history, manifest):
    """A manifest's boxes by what they are, without the headers around them."""
    inner = [(box.uuid, box.label, history.bytes_of(box)) for box in manifest.box.superboxes() if box.label != "c2pa.assertions"]
    return inner, [(box.label, history.bytes_of(box)) for box in manifest.boxes]


class Made:
    """A file that was built over a media file, and its store."""

    def __init__(self, media, other, made, redactions):
        self.contents, self.start, self.length = made
        self.new, self.media, self.other = History(self.contents), History(media), History(other)
        self.redacted = {(uri.manifest, uri.label) for uri in map(read_uri, redactions)}

    def wrong(self, planned):
        """What isn't as it must be."""
        yield from self.wrong_around(planned)
        labels = carried_labels(self.media, self.other)
        if self.new.labels()[:-1] != labels:
            yield f"the manifests {self.new.labels()}, not {labels} and a new one"
            return
        if self.new.others != self.media.others:
            yield "other boxes beside the manifests"
        if set(self.new.reached) != {self.new.labels()[-1], *self.media.reached, *self.other.reached}:
            yield f"{self.new.reached} are reached"
        for label in labels:
            yield from self.wrong_manifest(label)
        yield from self.wrong_ingredients()
        yield from self.wrong_questions()

    def wrong_around(self, planned):
        found = media_of(self.contents)
        if (found.start, found.length) != (self.start, self.length):
            yield f"the store stands at {found.start}, {found.length} bytes"
        if without(self.contents, self.start, self.length) not in kept_of(self.media.contents):
            yield "other bytes around the store"
        judge = Approving()
        said = report("validate", self.contents, [judge])[0]
        if not said.startswith(f"valid manifests={len(self.new.reached)} ") or judge.asked != len(self.new.reached):
            yield f"{said}, asked {judge.asked} times"
        if planned != ("tbs", signed_bytes(found.store)):
            yield f"{line_of(planned)[0][:100]} was to be signed"

    def wrong_manifest(self, label):
        """An older manifest that isn't as it was, less the redacted boxes in it; where there are none all its bytes are the same."""
        source = self.media if label in self.media.labels() else self.other
        old, new = source.manifest(label), self.new.manifest(label)
        gone = {each for manifest, each in self.redacted if manifest == label}
        if not gone and source.bytes_of(old.box) != self.new.bytes_of(new.box):
            yield f"other bytes in {label}"
        inner, boxes = parts_of(source, old)
        if parts_of(self.new, new) != (inner, [each for each in boxes if each[0] not in gone]):
            yield f"other boxes in {label}"

    def wrong_ingredients(self):
        """The new manifest names the active one of the media as its parent, where there is one, and behind it that of the other file."""
        active, known = self.new.manifests[-1], []
        for relationship, history in ("parentOf", self.media), ("componentOf", self.other):
            if history.manifests:
                known.append((relationship, history.labels()[-1]))
        found = [(each.relationship, each.names) for each in active.ingredients]
        labels = [each.box.label for each in active.ingredients]
        if found != known or labels != ["c2pa.ingredient.v3", "c2pa.ingredient.v3__1"][: len(known)]:
            yield f"the ingredients {found} by {labels}"
        order = [entry.label for entry in active.entries]
        if order[-1 - len(known) : -1] != labels or order != [box.label for box in active.boxes]:
            yield f"the assertions {order}"
        for each in active.ingredients:
            named = self.new.manifest(each.names)
            for reference, box in (each.manifest, named.box), (each.signature, named.signature):
                contents = self.new.store[box.inside : box.end]
                if reference.alg is not None or reference.hash != hashing.digest(contents, active.claim.alg):
                    yield f"the digest of {reference.url}"

    def wrong_questions(self):
        """Each question but the first is one of the media's or of the other file's."""
        new, known = self.new.questions(), self.media.questions() | self.other.questions()
        if list(new)[0] != self.new.labels()[-1] or dict(list(new.items())[1:]) != known:
            yield f"the questions {list(new)}"
        places = [self.new.labels().index(label) for label in new]
        if places != sorted(places, reverse=True):
            yield f"the order of the questions {list(new)}"


def wrong_in(media, other, made, planned, redactions=()):
    """What isn't as it must be in a new file: made are its bytes, and start and length of what was put in; planned is the answer of `plan-collect`."""
    return Made(media, other, made, redactions).wrong(planned)


def clash_in(media, other):
    """The first label at which the stores of two files clash, or None; None too where one has none that can be read."""
    try:
        return clash_of(History(media), History(other))
    except Refused:
        return None
