"""What c2's codes, verdicts and relationships mean, in words for somebody who looks at a photograph."""

CODES = {
    "unsupported.updateActive": "the newest manifest is an update, which c2 doesn't check",
    "claim.missing": "the manifest has no claim",
    "claim.multiple": "the manifest has more than one claim",
    "unsupported.claimVersion": "the claim is of a version that c2 doesn't check",
    "claim.cbor.invalid": "the claim is malformed",
    "profile.claim.fields": "the claim lacks a field, or has a malformed one",
    "claimSignature.missing": "the signature that the claim names isn't there",
    "profile.signature.form": "the signature is malformed",
    "claimSignature.mismatch": "the signature doesn't hold over the claim: one of the two was changed",
    "signingCredential.untrusted": "the signer's certificate leads to nobody who is trusted",
    "signingCredential.invalid": "the signer's certificate isn't valid, or not one for signing",
    "profile.verdict.missing": "no judge has said anything about the signature",
    "algorithm.unsupported": "a digest is of a hash function that c2 doesn't know",
    "profile.ingredient.signature": "the older manifest's signature isn't the one that was there when it was taken over",
    "ingredient.manifest.mismatch": "the older manifest isn't the one that was there when it was taken over",
    "profile.assertion.uri": "the claim lists what is no assertion of this manifest, or lists one twice",
    "unsupported.cloudData": "an assertion's data lies outside the file, where c2 doesn't look",
    "assertion.notRedacted": "an assertion that was redacted is still there",
    "assertion.missing": "an assertion that the claim lists isn't there",
    "assertion.hashedURI.mismatch": "the assertion was changed after it was signed",
    "assertion.undeclared": "an assertion is there that the claim doesn't list",
    "profile.redaction.uri": "a redaction names what is no assertion",
    "assertion.selfRedacted": "the manifest redacts an assertion of its own",
    "assertion.action.redacted": "a redaction takes out actions, which isn't allowed",
    "profile.redaction.binding": "a redaction takes out what binds the manifest to its media, which isn't allowed",
    "unsupported.redactIngredient": "a redaction takes out an ingredient, which c2 doesn't check",
    "unsupported.hashKind": "the media is bound by a kind of hash that c2 doesn't check",
    "claim.hardBindings.missing": "nothing binds the manifest to its media",
    "assertion.multipleHardBindings": "more than one assertion binds the manifest to its media",
    "manifest.multipleParents": "the manifest has more than one parent",
    "manifest.update.invalid": "an update binds media, which it must not",
    "manifest.update.wrongParents": "an update hasn't just one ingredient, its parent",
    "unsupported.ingredientVersion": "an ingredient is of a version that c2 doesn't check",
    "assertion.cbor.invalid": "the assertion is malformed",
    "profile.ingredient.form": "an ingredient lacks a field, or has a malformed one",
    "ingredient.manifest.missing": "the manifest of an ingredient isn't in the file",
    "unsupported.ingredientOrder": "the manifest of an ingredient stands behind the one that took it over",
    "unsupported.merkle": "the media is bound in pieces, which c2 doesn't check",
    "profile.hash.form": "what binds the media is malformed, or leaves out bytes that aren't there",
    "unsupported.tooManyExclusions": "what binds the media leaves out more parts than c2 checks",
    "unsupported.exclusionTest": "what binds the media leaves out boxes by a test that c2 doesn't make",
    "unsupported.exclusionPath": "what binds the media leaves out boxes inside a box that c2 doesn't enter",
    "assertion.dataHash.mismatch": "the media was changed after it was signed",
    "assertion.bmffHash.mismatch": "the media was changed after it was signed",
}

# A mark and words for each verdict that `questions` prints.
VERDICTS = {
    "approved": ("✓", "the judges approve the signature"),
    "mismatch": ("✗", "the signature doesn't hold"),
    "untrusted": ("✗", "the judges don't trust the signer"),
    "invalid": ("✗", "the signer's certificate isn't valid"),
    "silent": ("?", "no judge has said anything"),
    "none": ("–", "no signature that can be judged"),
    None: ("–", "not looked at: c2 reaches it from no newer one"),
}

RELATIONSHIPS = {"parentOf": "parent", "componentOf": "component", "inputTo": "input"}


def code_in_words(code):
    return CODES.get(code, "a rule fails that this page has no words for")
