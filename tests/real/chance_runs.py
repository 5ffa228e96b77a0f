#!/usr/bin/env python3
"""Runs every command of c2 beside the independent programs, over the same stores, which are drawn at random with the versions of claims and
ingredients and the three algorithms mixed.

    chance_runs.py C2 COUNT [SEED [KIND]]      draws COUNT stores, the same ones for the same seed; KIND is jpeg, bmff, or both by turns (the default)

Over each store `digest`, `list`, `show`, `questions` and `validate` are run beside store.py, `compare` with a second file beside pairs.py,
`plan` and `embed` beside builder.py, `plan-front` and `embed-front` beside front.py, over what is left of a film without its store, over a drawn film in
the place of a JPEG, or over the file itself, `plan-collect` and `embed-collect` beside collect.py, into the file or into what `embed` made of it, and `strip`, `extract` and `validate-external` beside external.py: over the file with its own store or the second file's beside it, and `strip`
over what `embed` made of it. The second file is the first one, or differs from it in what no claim binds, in what only a signature
vouches for, in a version, or in anything. Prints how often each answer came, how many stores had which versions and how many algorithms, and each
difference, whose files are kept in the current directory: differs-N and differs-N.verdicts-M of what is read, pair-N.first, pair-N.second and
pair-N.verdicts-M of `compare`, differs-N.media, differs-N.definition and differs-N.signature of builds, front-N.media, front-N.definition and
front-N.signature of those in front, collect-N.* as chance_collects.py names them, external-N.media, external-N.store and external-N.verdicts-M of the last three. The status is 1 where there is a difference.
Without C2 (a word `-` in its place) only the answers are counted.
"""

import os
import random
import subprocess
import sys
import tempfile
from collections import Counter

import hashing
import pairs
from chance_builds import Builds, drawn_definition, drawn_message, manifests_in
from chance_collects import Collects, verdicts_for
from chance_external import Externals, questions_of, taken
from chance_fronts import Fronts, drawn_media
from chance_pairs import changed
from chance_pairs import kind_of_answer as kind_of_pair
from chance_stores import Drawn, changed_file, questions_in, verdict_files
from drafts import relabelled
from locate import Refused
from make_store import data
from manifests import CLAIM_LABELS, INGREDIENT_LABELS, base_of, read_uri, version_of
from media import media_of
from store import JUDGE_FAULT, JudgeFault, verdicts_in
from told import tell, write
from validate import Comparison

KINDS = "jpeg", "bmff"
MEANT = {"jpeg": KINDS[:1], "bmff": KINDS[1:]}
# The bytes of a field in which two claims differ; with more or fewer of them its head has two bytes too.
FIELD = 120
# About how long the box of a new store is, for places near the most that a field takes.
LENGTHS = 1_220, 1_268, 1_316


# Second files, of drafts whose first file is written


def as_it_is(chance, drawn, first):
    return first


def signed_anew(chance, drawn, first):
    """The active claim under another signature."""
    drawn.manifests[-1].signature = chance.randbytes(4)
    return drawn.file()


def renamed(chance, drawn, first):
    """The active manifest under another label, which its claim needn't name."""
    drawn.manifests[-1].label = "another label"
    return drawn.file()


def of_other_label(chance, drawn, first):
    """The active claim's bytes under the label of the other version."""
    active = drawn.manifests[-1]
    label = CLAIM_LABELS[3 - active.version]
    active.change_claims = lambda boxes: [relabelled(box, label) for box in boxes]
    return drawn.file()


def of_other_version(chance, drawn, first):
    """A manifest whose claim is of the other version."""
    draft = chance.choice(drawn.manifests)
    draft.version = 3 - draft.version
    return drawn.file()


def by_other_algorithm(chance, drawn, first):
    """A manifest whose claim names another algorithm."""
    chance.choice(drawn.manifests).claim_alg = chance.choice((None, *hashing.LENGTHS))
    return drawn.file()


def other_below(chance, drawn, first):
    """Another claim in a touched manifest, of which the manifests above have the signature alone: with another field, or of the other version. The
    field is made longer or shorter, so that the store keeps its length, which the binding has."""
    draft = chance.choice(touched(drawn))
    draft.version = chance.choice((1, 2))
    draft.claim_fields = {"x": data(b"\1" * FIELD)}
    longer = len(drawn.file()) - len(first)
    draft.claim_fields = {"x": data(b"\1" * (FIELD - longer))}
    return drawn.file()


def of_other_bytes(chance, drawn, first):
    return changed(chance, first)


def another(chance, drawn, first):
    return Drawn(chance).file()


# Each of these by its weight.
SECONDS = {
    as_it_is: 2,
    signed_anew: 2,
    renamed: 1,
    of_other_label: 1,
    of_other_version: 1,
    by_other_algorithm: 1,
    of_other_bytes: 3,
    another: 1,
}


def touched(drawn):
    """The drafts below the active one that a redaction of an assertion names."""
    named = {read_uri(text).manifest for draft in drawn.manifests for text in draft.redactions if read_uri(text)}
    return [draft for draft in drawn.manifests[:-1] if draft.label in named]


def leave_to_signatures(drawn):
    """Makes the ingredients that name a touched manifest say nothing of it but its signature: the digest of its contents isn't looked at then. Its
    claim gets a field that may be changed."""
    for draft in touched(drawn):
        draft.claim_fields = {"x": data(bytes(FIELD))}
    labels = {draft.label for draft in touched(drawn)}
    for draft in drawn.manifests:
        for given in drawn.ingredients(draft):
            if given.named in labels:
                given.hashes[0] = lambda contents, name: bytes(hashing.LENGTHS[name])


def drawn_files(chance, is_bmff):
    """A store's file and a second one, or None in its place where the first was changed by bytes."""
    drawn = Drawn(chance, is_bmff)
    is_left = touched(drawn) and chance.random() < 0.6
    if is_left:
        leave_to_signatures(drawn)
    for _ in range(chance.choice((0, 0, 0, 0, 1, 1, 2))):
        drawn.put_fault()
    first = drawn.file()
    if chance.random() < 0.15:
        return changed_file(chance, first), None
    # a fault may have taken the redaction away again
    second = other_below if is_left and touched(drawn) else chance.choices(list(SECONDS), list(SECONDS.values()))[0]
    return first, second(chance, drawn, first)


# Runs


class Pairs:
    """Runs of `compare` beside pairs.py, in a folder."""

    def __init__(self, program, folder):
        self.program, self.folder = program, folder
        self.answers, self.differences = Counter(), 0

    def path(self, name):
        return os.path.join(self.folder, name)

    def compare(self, first, second, files):
        judges = [None if rows is None else verdicts_in(rows) for rows in files]
        try:
            text, status = pairs.compared(first, second, judges)
            kind, expected = kind_of_pair(text), (text.encode() + b"\n", status)
        except JudgeFault:
            kind, expected = "a judge's fault", (b"", JUDGE_FAULT)
        self.answers[kind] += 1
        if self.program is None:
            return
        contents = {"first": first, "second": second, **{f"verdicts-{number}": rows for number, rows in enumerate(files)}}
        put(self.folder, contents)
        done = subprocess.run([self.program, "compare", *map(self.path, contents)], stdout=subprocess.PIPE, check=False)
        if (done.stdout, done.returncode) != expected:
            self.differences += 1
            put(".", {f"pair-{self.differences}.{name}": rows for name, rows in contents.items()})
            print(f"pair-{self.differences}:")
            print(f"  c2       {done.returncode} {done.stdout[:300]}")
            print(f"  pairs.py {expected[1]} {expected[0][:300]}")


def film_for(chance, contents):
    """What a store is put in front of: a film without its store, or one that is drawn in the place of a JPEG; now and then the file itself."""
    try:
        media = media_of(contents)
    except Refused:
        return contents
    if chance.random() < 0.15:
        return contents
    if contents[:2] == b"\xff\xd8":
        return drawn_media(chance, chance.choice(LENGTHS))
    return contents if media is None else contents[: media.start] + contents[media.start + media.length :]


def put(folder, contents):
    """Writes files by their names; where there is nothing to write no file is left."""
    for name, rows in contents.items():
        path = os.path.join(folder, name)
        if rows is not None:
            write(path, rows)
        elif os.path.exists(path):
            os.remove(path)


class Mixture:
    """How many stores have which versions of claims and ingredients, and how many algorithms, among their manifests."""

    def __init__(self):
        self.counts = Counter()

    def count(self, contents):
        manifests = manifests_in(contents)
        claims = {manifest.claim.version for manifest in manifests if manifest.claim}
        ingredients = {version_of(INGREDIENT_LABELS, base_of(it.box.label)) for manifest in manifests for it in manifest.ingredients if it.code is None}
        self.counts[f"stores with claims of version {spelled(claims)}"] += 1
        self.counts[f"stores with ingredients of version {spelled(ingredients)}"] += 1
        self.counts[f"stores with {len(set(algorithms_in(manifests)))} known algorithms"] += 1


def spelled(versions):
    return " and ".join(map(str, sorted(versions))) or "none"


def algorithms_in(manifests):
    """The known algorithms by which the entries and ingredients of manifests have digests."""
    for manifest in manifests:
        references = [entry.reference for entry in manifest.entries]
        references += [reference for it in manifest.ingredients for reference in (it.manifest, it.signature) if reference]
        yield from filter(hashing.is_known, (manifest.algorithm(reference.alg) for reference in references))


class Runs:
    """Runs of all commands over the same stores."""

    def __init__(self, program, folder):
        folders = [os.path.join(folder, name) for name in ("read", "pairs", "builds", "external", "fronts", "collects")]
        for each in folders:
            os.mkdir(each)
        self.read, self.pairs, self.builds = Comparison(program, folders[0]), Pairs(program, folders[1]), Builds(program, folders[2])
        self.external, self.fronts = Externals(program, folders[3]), Fronts(program, folders[4])
        self.collects = Collects(program, folders[5])
        self.mixture = Mixture()

    def run(self, chance, is_bmff):
        first, second = drawn_files(chance, is_bmff)
        self.mixture.count(first)
        self.read.compare(first, verdict_files(chance, questions_in(first)), True)
        if second is not None:
            self.pairs.compare(first, second, verdict_files(chance, [*questions_in(first), *questions_in(second)]))
        message, said = drawn_message(chance)
        definition = drawn_definition(chance, manifests_in(first), said)
        built = self.builds.compare(first, definition, message, verdict_files(chance, questions_in(first)))
        self.fronts.compare(film_for(chance, first), definition, message)
        store = taken("extract", first if second is None or chance.random() < 0.5 else second) or b""
        self.external.compare(chance, first, store, verdict_files(chance, questions_of(store)))
        if isinstance(built[0], bytes):
            self.external.compare_built(first, built[0])
        self.collect(chance, first, second, built[0] if isinstance(built[0], bytes) and chance.random() < 0.5 else None)

    def collect(self, chance, first, second, built):
        """Collects the second file, or the first, into the first, or into what was built of it."""
        media, other = built or first, second if second is not None and chance.random() < 0.7 else first
        message, said = drawn_message(chance)
        definition = drawn_definition(chance, [*manifests_in(media), *manifests_in(other)], said)
        self.collects.compare([media, definition, message, other], verdicts_for(chance, (media, other)))

    def answers(self):
        named = {"validate": self.read.answers, "compare": self.pairs.answers, "embed": self.builds.answers, "embed-front": self.fronts.answers}
        named["embed-collect"] = self.collects.answers
        told = Counter({f"{command}: {answer}": times for command, each in named.items() for answer, times in each.items()})
        return told + self.external.answers + self.mixture.counts

    def counts(self):
        """How often each command was run, by name."""
        built = sum(self.builds.answers.values())
        counted = Counter({"compare": sum(self.pairs.answers.values()), "plan": built, "embed": built})
        return Counter(self.read.runs) + counted + self.external.runs + self.fronts.runs + self.collects.runs

    def differences(self):
        return sum(each.differences for each in (self.read, self.pairs, self.builds, self.external, self.fronts, self.collects))


def main():
    program, count, *more = sys.argv[1:]
    chance = random.Random(int(more[0]) if more else 1)
    kinds = MEANT.get("".join(more[1:]), KINDS)
    with tempfile.TemporaryDirectory() as folder:
        runs = Runs(None if program == "-" else os.path.abspath(program), folder)
        for number in range(int(count)):
            runs.run(chance, kinds[number % len(kinds)] == "bmff")
    told = ", ".join(f"{times} of {command}" for command, times in runs.counts().items()) if program != "-" else "none"
    tell(runs.answers(), f"{count} stores, runs: {told}; {runs.differences()} differences", runs.differences())


if __name__ == "__main__":
    main()
