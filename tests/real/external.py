#!/usr/bin/env python3
"""What `c2 strip`, `c2 extract` and `c2 validate-external` must print and write, computed apart from c2, and the status they must exit with.

    external.py strip MEDIA OUT                               writes the media less the range of its store
    external.py extract MEDIA OUT                             writes the store
    external.py validate-external MEDIA STORE [VERDICTFILE..] checks the media against a store that lies in a file of its own

The media is read by media.py, the store by jumbf.py and manifests.py, and judged by rules.py. Nothing here was taken from c2's own code.
"""

import os
import sys

import bmff
import jumbf
from locate import LARGEST_STORE, Refused
from media import Media, is_jpeg, media_of
from rules import CheckList
from store import DONE, INPUT_FAULT, JUDGE_FAULT, NO_STORE, OUTPUT_FAULT, REFUSED, USAGE, JudgeFault, end_with, read_verdicts, validated, verdict_of

STRIP_REFUSED = 13
MOST_JUDGES = 64
WRITERS = "strip", "extract"


def strip(data):
    """Line, status, and the media less the range of its store; None where nothing is written."""
    media = media_of(data)
    if media is None:
        return "none", NO_STORE, None
    if media.roots is not None and not is_at_end(media):
        return f"strip Middle {media.start}", STRIP_REFUSED, None
    return f"stripped {media.start} {media.length}", DONE, data[: media.start] + data[media.start + media.length :]


def is_at_end(media):
    """Whether no box moves where that of the store is taken out of a BMFF file, but a last index of fragments (ISO/IEC 14496-12, `mfra`)."""
    return [box.kind for box in media.roots if box.start > media.start] in ([], [b"mfra"])


def extract(data):
    """Line, status, and the bytes of the store; None where nothing is written."""
    media = media_of(data)
    if media is None:
        return "none", NO_STORE, None
    return f"extracted {len(media.store)}", DONE, media.store


def apart(data):
    """A media file beside which a store lies (C2PA Technical Specification, external manifests): no part of it is the range of that store, and a
    store of its own passes unread."""
    media_of(data)
    return Media(data, len(data), 0, b"", None if is_jpeg(data) else bmff.root_boxes(data))


def validate_external(data, store, judges=()):
    """Line and status. `store` is called where the store is due."""
    media = apart(data)
    contents = store()
    try:
        if len(contents) > LARGEST_STORE:
            raise Refused("StoreTooLarge", len(contents))
        check_list = CheckList(contents, jumbf.read(contents), lambda identity: verdict_of(judges, identity))
    except Refused as refused:
        return f"refused store {refused.reason} {refused.number}", REFUSED
    return validated(check_list, media)


def answer(command, data, *more):
    """Line, status and new file (None for none) of a command over bytes; those of `validate-external` are the call for the store and the judges."""
    try:
        if command in WRITERS:
            return {"strip": strip, "extract": extract}[command](data)
        return *validate_external(data, *more), None
    except Refused as refused:
        return f"refused {refused.reason} {refused.number}", REFUSED, None
    except OSError:
        return "", INPUT_FAULT, None
    except JudgeFault:
        return "", JUDGE_FAULT, None


def contents_of(name):
    with open(name, "rb") as file:
        return file.read()


def fits(command, names):
    """Whether the words behind a command are such as it takes."""
    most = {"strip": 2, "extract": 2, "validate-external": 2 + MOST_JUDGES}.get(command, 0)
    return 2 <= len(names) <= most and not any(name == "" or name.startswith("-") for name in names)


def told(command="", *names):
    """The bytes that words must print (none of a usage line), and the status; a new file is written."""
    if not fits(command, names):
        return b"", USAGE
    media, *more = names
    try:
        data = contents_of(media)
    except OSError:
        return b"", INPUT_FAULT
    given = [] if command in WRITERS else [lambda: contents_of(more[0]), [read_verdicts(name) for name in more[1:]]]
    line, status, out = answer(command, data, *given)
    if out is not None:
        if os.path.lexists(more[0]):
            return b"", OUTPUT_FAULT
        with open(more[0], "xb") as file:
            file.write(out)
    return line.encode() + b"\n" if line else b"", status


if __name__ == "__main__":
    end_with(*told(*sys.argv[1:]))
