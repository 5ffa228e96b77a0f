#!/usr/bin/env python3
"""What `c2 plan-front` and `c2 embed-front` must print and write, computed apart from c2, and the status they must exit with.

    front.py plan-front MEDIA DEFINITION                  the bytes to be signed
    front.py embed-front MEDIA DEFINITION SIGNATURE OUT   writes the new file, whose store stands right behind its file type box

The media is read by media.py, its chunk tables by chunks.py, the definition file by definition.py; store and claim are those of builder.py. Nothing here
was taken from c2's own code.
"""

import os
import sys
from functools import partial

import bmff
import chunks
from builder import BmffBase, BuildRefused, OldStore, built, line_of, planned
from locate import Refused
from media import is_jpeg, media_of
from store import INPUT_FAULT, OUTPUT_FAULT, USAGE, end_with

# How many names follow a command.
NAMES = {"plan-front": 2, "embed-front": 4}


def plan(media, definition):
    """What is planned of bytes, as builder.py has it."""
    return planned(lambda: read_media(media), lambda: definition)


def embed(media, definition, signature):
    """What is built of bytes, as builder.py has it."""
    return built(lambda: read_media(media), lambda: definition, lambda: signature)


def read_media(contents):
    """A media file that no store is carried over from: the tests of its container and of its store, as `embed` makes them."""
    try:
        media = media_of(contents)
        if media is not None:
            OldStore(media, ())
    except Refused as refused:
        raise BuildRefused("MediaRefused", refused.reason, refused.number) from None
    return None, FrontBase(contents, media)


class FrontBase(BmffBase):
    """A BMFF file in whose chunk tables the places behind its file type box are moved, so that a box has room there."""

    def __init__(self, contents, media):
        self.contents, self.media, self.size = contents, media, len(contents)
        self.roots = self.place = self.tables = self.moved = None

    @property
    def root_boxes(self):
        return len(self.roots)

    def check(self):
        if is_jpeg(self.contents):
            raise BuildRefused("NotBmff")
        if self.media is not None:
            raise BuildRefused("HasStore")
        if self.contents[:4] == bytes(4):
            raise BuildRefused("OpenBox", 0)
        self.roots = bmff.root_boxes(self.contents)

    def find_place(self):
        self.place = self.roots[0].end
        self.tables = movable(chunks.chunk_tables, self.contents, self.roots)

    def make_room(self, length):
        places = self.contents, self.tables, self.place, length
        movable(chunks.check_room, *places)
        self.moved = chunks.moved(*places)

    def kept(self):
        return self.moved

    def binding(self, length, alg):
        """All root boxes but the first, the file type box, stand later by the length of the new box."""
        return self.covering(alg, self.moved, ((box, box.start + length) for box in self.roots[1:]))


def movable(call, *given):
    """What a call of chunks.py gives, whose refusals are those of the build."""
    try:
        return call(*given)
    except chunks.NotMoved as refused:
        raise BuildRefused(*refused.args) from None


# Files


def contents_of(name):
    with open(name, "rb") as file:
        return file.read()


def answer(command, names):
    """The line that words must print, the status, and the new file or None. A file that isn't due needn't be there."""
    media, *more = (partial(contents_of, name) for name in names)
    try:
        told = (planned if command == "plan-front" else built)(lambda: read_media(media()), *more)
    except OSError:
        return "", INPUT_FAULT, None
    return *line_of(told), told[0] if isinstance(told[0], bytes) else None


def told(command="", *names):
    """The bytes that words must print (none of a usage line), and the status; a new file is written."""
    if len(names) != NAMES.get(command) or any(name == "" or name.startswith("-") for name in names):
        return b"", USAGE
    line, status, new = answer(command, names[:3])
    if new is not None:
        if os.path.lexists(names[3]):
            return b"", OUTPUT_FAULT
        with open(names[3], "xb") as file:
            file.write(new)
    return line.encode() + b"\n" if line else b"", status


if __name__ == "__main__":
    end_with(*told(*sys.argv[1:]))
