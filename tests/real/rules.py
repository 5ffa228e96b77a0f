"""The check list: whether the manifest store of a media file is valid, and else the first rule that fails, with its code and URI.

Written from the C2PA Technical Specification 2.x and the list of checks, apart from c2's code. A rule is a generator of what
fails, in the order of its cases; so nothing is computed, and no judge is asked, behind the first that does.
"""

import hashing
from fields import BadBinding
from manifests import (
    ACTIONS,
    BINDINGS,
    CLOUD,
    HASHES,
    INGREDIENT,
    INGREDIENTS,
    OTHER_HASH,
    Manifest,
    claim_boxes_of,
    item_of,
    kind_of,
    manifests_of,
    names_signature,
    read_uri,
)
from media import Binding

VERDICT_CODES = {
    "mismatch": "claimSignature.mismatch",
    "untrusted": "signingCredential.untrusted",
    "invalid": "signingCredential.invalid",
    "silent": "profile.verdict.missing",
}


def uri(manifest, *labels):
    return "/".join(["self#jumbf=/c2pa", manifest, *labels])


class Chain:
    """The manifests of a store by their boxes, and which of them are reached from some, the roots: positions, the last first."""

    def __init__(self, store, boxes, roots):
        self.store, self.manifests = store, [Manifest(store, box) for box in boxes]
        self.places = {manifest.label: at for at, manifest in enumerate(self.manifests)}
        # the positions that are reached from each manifest, as bits
        self.below = []
        for at in range(len(self.manifests)):
            children = {child for child in map(self.child(at), self.manifests[at].ingredients) if child is not None}
            self.below.append(sum(1 << child for child in children))
            for child in children:
                self.below[at] |= self.below[child]
        self.reached = [at for at in reversed(range(len(self.manifests))) if at in roots or any(self.reaches(root, at) for root in roots)]

    def child(self, at):
        """The child that an ingredient of a manifest names: its position, or None."""

        def position(ingredient):
            place = self.places.get(ingredient.names)
            return place if place is not None and place < at else None

        return position

    def reaches(self, at, other):
        return self.below[at] >> other & 1 == 1


class CheckList(Chain):
    """The rules over a store; `ask` gives the verdict on the id of a question."""

    def __init__(self, store, root, ask):
        boxes = manifests_of(root)
        self.ask, self.active = ask, len(boxes) - 1
        super().__init__(store, boxes, [self.active])
        self.redacted = [set() for _ in self.manifests]
        for at in self.reached:
            for label, target in self.redactions_by(at):
                self.redacted[target].add(label)
        self.touched = [not manifest.listed.isdisjoint(self.redacted[at]) for at, manifest in enumerate(self.manifests)]
        self.digests = {}
        # the covered and the excluded bytes that `valid` tells, once the binding is computed
        self.counts = None

    def redactions_by(self, at):
        """Labels and positions of manifests below, which the claim of a manifest redacts there."""
        claim = self.manifests[at].claim
        for text in claim.redacted if claim else ():
            target = read_uri(text)
            if target is None or target.target != "assertion" or target.manifest not in self.places:
                continue
            place = self.places[target.manifest]
            if self.reaches(at, place):
                yield target.label, place

    def has_digest(self, box, manifest, reference):
        """Whether a reference in a manifest, whose algorithm is known, has the digest of a box's contents, behind the box's own header."""
        named = box.start, manifest.algorithm(reference.alg)
        if named not in self.digests:
            self.digests[named] = hashing.digest(self.store[box.inside : box.end], named[1])
        return self.digests[named] == reference.hash

    # What `questions` and `validate` say

    def questions(self):
        """Id, label and verdict of each reached manifest, the last first; id and verdict are None where nothing can be asked."""
        for at in self.reached:
            manifest = self.manifests[at]
            question = manifest.question()
            yield question, manifest.label, None if question is None else self.ask(question)

    def failing(self, media):
        """Code and URI of the rules that fail, in their order."""
        if self.manifests[self.active].is_update:
            yield "unsupported.updateActive", uri(self.manifests[self.active].label)
        for at in self.reached:
            yield from self.rules(at)
        yield from self.binding_rule(media)

    def summary(self):
        """The four numbers of a store in which no rule fails."""
        kept = sum(entry.label not in self.redacted[at] for at in self.reached for entry in self.manifests[at].entries)
        return len(self.reached), kept, *self.counts

    # The rules of one manifest

    def rules(self, at):
        manifest = self.manifests[at]
        for rule in (
            self.claim_rule,
            self.signature_rule,
            self.verdict_rule,
            self.children_rule,
            self.entries_rule,
            self.boxes_rule,
            self.redactions_rule,
            self.update_rule if manifest.is_update else self.bindings_rule,
            self.ingredients_rule,
        ):
            yield from rule(at, manifest)

    def claim_rule(self, _, manifest):
        code = manifest.claim_code
        if code in ("claim.missing", "claim.multiple", "unsupported.claimVersion"):
            yield code, uri(manifest.label)
        elif code is not None:
            yield code, claim_uri(manifest)

    def signature_rule(self, _, manifest):
        place = uri(manifest.label, "c2pa.signature")
        if manifest.signature is None or not names_signature(manifest.claim.signature, manifest.label):
            yield "claimSignature.missing", place
        if manifest.sign is None:
            yield "profile.signature.form", place

    def verdict_rule(self, _, manifest):
        verdict = self.ask(manifest.question())
        if verdict != "approved":
            yield VERDICT_CODES[verdict], uri(manifest.label, "c2pa.signature")

    def children_rule(self, at, manifest):
        for ingredient in manifest.ingredients:
            place = self.child(at)(ingredient)
            if place is None:
                continue
            child, signature = self.manifests[place], ingredient.signature
            named = assertion_uri(manifest, ingredient.box.label)
            references = [reference for reference in (ingredient.manifest, signature) if reference is not None]
            if not all(hashing.is_known(manifest.algorithm(reference.alg)) for reference in references):
                yield "algorithm.unsupported", named
            if signature is not None and (child.signature is None or not self.has_digest(child.signature, manifest, signature)):
                yield "profile.ingredient.signature", named
            if signature is None and self.touched[place]:
                yield "profile.ingredient.signature", named
            if not self.touched[place] and not self.has_digest(child.box, manifest, ingredient.manifest):
                yield "ingredient.manifest.mismatch", named

    def entries_rule(self, at, manifest):
        earlier = set()
        for entry in manifest.entries:
            label = entry.label
            if label is None or label in earlier:
                yield "profile.assertion.uri", claim_uri(manifest)
            earlier.add(label)
            named, box = assertion_uri(manifest, label), manifest.labelled.get(label)
            if kind_of(label) == CLOUD:
                yield "unsupported.cloudData", named
            if not hashing.is_known(manifest.algorithm(entry.reference.alg)):
                yield "algorithm.unsupported", named
            if label in self.redacted[at]:
                if box is not None:
                    yield "assertion.notRedacted", named
            elif box is None:
                yield "assertion.missing", named
            elif not self.has_digest(box, manifest, entry.reference):
                yield "assertion.hashedURI.mismatch", named

    def boxes_rule(self, _, manifest):
        for box in manifest.boxes:
            if box.label is None:
                yield "assertion.undeclared", uri(manifest.label, "c2pa.assertions")
            elif box.label not in manifest.listed:
                yield "assertion.undeclared", assertion_uri(manifest, box.label)

    def redactions_rule(self, _, manifest):
        for text in manifest.claim.redacted:
            target = read_uri(text)
            if not is_assertion(target):
                yield "profile.redaction.uri", claim_uri(manifest)
                continue
            owner = manifest.label if target.manifest is None else target.manifest
            for code in redaction_codes(target, manifest.label):
                yield code, uri(owner, "c2pa.assertions", target.label)

    def bindings_rule(self, at, manifest):
        kinds = [(kind_of(entry.label), entry.label) for entry in manifest.entries]
        others = [label for kind, label in kinds if kind == OTHER_HASH]
        bindings = [label for kind, label in kinds if kind in BINDINGS]
        if at == self.active and others:
            yield "unsupported.hashKind", assertion_uri(manifest, others[0])
        if not bindings and (at == self.active or not others):
            yield "claim.hardBindings.missing", claim_uri(manifest)
        if len(bindings) > 1:
            yield "assertion.multipleHardBindings", assertion_uri(manifest, bindings[1])
        if sum(ingredient.relationship == "parentOf" for ingredient in manifest.ingredients) > 1:
            yield "manifest.multipleParents", uri(manifest.label)

    def update_rule(self, _, manifest):
        if any(kind_of(entry.label) in HASHES for entry in manifest.entries):
            yield "manifest.update.invalid", uri(manifest.label)
        relationships = [it.relationship for it in manifest.ingredients if kind_of(it.box.label) == INGREDIENT]
        if relationships != ["parentOf"]:
            yield "manifest.update.wrongParents", uri(manifest.label)

    def ingredients_rule(self, at, manifest):
        for ingredient in manifest.ingredients:
            named = assertion_uri(manifest, ingredient.box.label)
            if ingredient.code is not None:
                yield ingredient.code, named
            elif ingredient.names is not None:
                if ingredient.names not in self.places:
                    yield "ingredient.manifest.missing", named
                elif self.places[ingredient.names] >= at:
                    yield "unsupported.ingredientOrder", named

    # The binding of the active manifest to the file

    def binding_label(self):
        manifest = self.manifests[self.active]
        return next(entry.label for entry in manifest.entries if kind_of(entry.label) in BINDINGS)

    def binding_rule(self, media):
        """By the rules before it the manifest has one entry that is a binding, and its box."""
        manifest, label = self.manifests[self.active], self.binding_label()
        named, kind, item = assertion_uri(manifest, label), kind_of(label), item_of(self.store, manifest.labelled[label])
        if item is None:
            yield "assertion.cbor.invalid", named
        try:
            binding = Binding(kind, item, media)
            algorithm = manifest.algorithm(binding.alg)
            if not hashing.is_known(algorithm):
                yield "algorithm.unsupported", named
            digest, *self.counts = binding.cover(media, algorithm)
        except BadBinding as bad:
            yield bad.code, named
        if digest != binding.hash:
            yield "assertion.bmffHash.mismatch" if binding.is_bmff else "assertion.dataHash.mismatch", named


def is_assertion(target):
    """Whether a JUMBF URI that was read names an assertion."""
    return target is not None and target.target == "assertion"


def redaction_codes(target, label):
    """What is wrong with a redaction of an assertion in the manifest of a label."""
    kind = kind_of(target.label)
    if target.manifest in (None, label):
        yield "assertion.selfRedacted"
    if kind == ACTIONS:
        yield "assertion.action.redacted"
    if kind in HASHES:
        yield "profile.redaction.binding"
    if kind in INGREDIENTS:
        yield "unsupported.redactIngredient"


def claim_uri(manifest):
    """The URI of a manifest's one claim box."""
    return uri(manifest.label, claim_boxes_of(manifest.box)[0].label)


def assertion_uri(manifest, label):
    return uri(manifest.label, "c2pa.assertions", label)
