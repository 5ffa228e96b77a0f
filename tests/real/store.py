#!/usr/bin/env python3
"""What c2 must print of the C2PA manifest store of a media file, computed apart from c2, and the status it must exit with.

    store.py digest FILE [ALG]                the range of the store and the digest of all else
    store.py list FILE                        the boxes of the store
    store.py show FILE                        its manifests and claims, as JSON
    store.py questions FILE [VERDICTFILE..]   the questions on the signatures, and what the verdict files say
    store.py validate FILE [VERDICTFILE..]    whether the store is valid, or the first rule that fails

Nothing here was taken from c2's own code. Another command exits with c2's status for words that don't fit; what follows the
command isn't looked at.
"""

import hashlib
import json
import re
import sys

import hashing
import jumbf
from locate import Refused
from manifests import assertions_of, claim_or_code, is_of, manifests_of
from media import media_of
from rules import CheckList

LARGEST_VERDICT_FILE = 1_048_576
VERDICT_ROW = re.compile(rb"([0-9a-f]{64}) (approved|mismatch|untrusted|invalid)")
COMMANDS = "digest", "list", "show", "questions", "validate"
DONE, FAILING, REFUSED, NO_STORE, USAGE, INPUT_FAULT, OUTPUT_FAULT, JUDGE_FAULT = range(8)


class JudgeFault(Exception):
    """A judge was asked that can't answer: its verdict file is none."""


def printable(text):
    return "".join("?" if ord(c) < 0x20 or ord(c) == 0x7F else c for c in text)


def verdicts_in(data):
    """The verdicts of a file's bytes by question id, the first row of an id holding; None where they are no verdict file."""
    rows = [VERDICT_ROW.fullmatch(line) for line in data.removesuffix(b"\n").split(b"\n")] if data else []
    if len(data) > LARGEST_VERDICT_FILE or None in rows:
        return None
    verdicts = {}
    for row in rows:
        verdicts.setdefault(row[1].decode(), row[2].decode())
    return verdicts


def read_verdicts(name):
    """The verdicts of a named file; None where it is none."""
    try:
        with open(name, "rb") as file:
            return verdicts_in(file.read())
    except OSError:
        return None


def verdict_of(judges, identity):
    """The first verdict of the judges on a question, in their order; none is asked behind it."""
    for judge in judges:
        if judge is None:
            raise JudgeFault
        if identity in judge:
            return judge[identity]
    return "silent"


def digest(media, algorithm):
    state = hashlib.new(algorithm, media.data[: media.start])
    state.update(media.data[media.start + media.length :])
    return f"{media.start} {media.length} {state.hexdigest()}", DONE


def listing(store, root):
    """The lines of `list`: depth, place, length, kind and label of each box, a superbox before its children."""
    lines, pending = [], [(1, root)]
    while pending:
        depth, box = pending.pop()
        label = printable(box.label or "-")
        lines.append(f"{depth} {box.start} {box.end - box.start} {box.kind.hex()} {label}")
        pending.extend((depth + 1, child) for child in reversed(box.children))
    return "\n".join(lines), DONE


def claim_shown(claim):
    if claim is None:
        return None
    entries = [{"alg": entry.alg, "hash": entry.hash.hex(), "url": entry.url} for entry in claim.entries]
    return {"alg": claim.alg, "assertions": entries, "instanceID": claim.instance, "redacted": claim.redacted}


def manifest_shown(store, manifest):
    labelled = [box for box in assertions_of(manifest) if box.label is not None]
    return {
        "boxes": [{"label": box.label, "size": box.end - box.inside} for box in labelled],
        "claim": claim_shown(claim_or_code(store, manifest)[0]),
        "label": manifest.label,
        "update": is_of(manifest, b"c2um"),
    }


def shown(store, root):
    """The line of `show`."""
    manifests = manifests_of(root)
    value = {"active": manifests[-1].label, "manifests": [manifest_shown(store, manifest) for manifest in manifests]}
    return json.dumps(value, ensure_ascii=False, separators=(",", ":"), sort_keys=True), DONE


def questions(check_list):
    """The lines of `questions`, one for each reached manifest, the last first."""
    lines = [f"{identity or '-'} {printable(label)} {verdict or 'none'}" for identity, label, verdict in check_list.questions()]
    return "\n".join(lines), DONE


def validated(check_list, media):
    """The line of `validate`."""
    for code, uri in check_list.failing(media):
        return f"failing {code} {printable(uri)}", REFUSED if code.startswith("unsupported.") else FAILING
    return "valid manifests={} assertions={} covered={} outside={}".format(*check_list.summary()), DONE


def report(command, data, judges=(), algorithm=hashing.DEFAULT):
    """What a command prints of a file's bytes, and its status; `algorithm` is that of `digest`."""
    try:
        media = media_of(data)
        if media is None:
            return "none", NO_STORE
        if command == "digest":
            return digest(media, algorithm)
        root = jumbf.read(media.store)
        if command == "list":
            return listing(media.store, root)
        if command == "show":
            return shown(media.store, root)
        check_list = CheckList(media.store, root, lambda identity: verdict_of(judges, identity))
        return questions(check_list) if command == "questions" else validated(check_list, media)
    except Refused as refused:
        return f"refused {refused.reason} {refused.number}", REFUSED


def answer(command, name, *more):
    """The bytes that words must print, and the status."""
    algorithms = more if command == "digest" and more else (hashing.DEFAULT,)
    if command not in COMMANDS or len(algorithms) > 1 or not hashing.is_known(algorithms[0]):
        return b"", USAGE
    judges = [] if command == "digest" else [read_verdicts(verdicts) for verdicts in more]
    try:
        with open(name, "rb") as file:
            data = file.read()
        text, status = report(command, data, judges, *algorithms)
    except OSError:
        return b"", INPUT_FAULT
    except JudgeFault:
        return b"", JUDGE_FAULT
    return text.encode("utf-8") + b"\n", status


def end_with(printed, status):
    """Prints these bytes, and ends with this status."""
    sys.stdout.buffer.write(printed)
    sys.stdout.buffer.flush()
    sys.exit(status)


if __name__ == "__main__":
    end_with(*answer(*sys.argv[1:]))
