"""The definition file of what shall be written (docs/FORMATS.md), or the first field that is refused.

Nothing here was taken from c2's own code.
"""

import json
import math
import re
from collections import namedtuple

import cbor
import hashing
from manifests import ACTIONS, ORDINARY, kind_of

LARGEST_FILE = 1_048_576
MOST_PROTECTED = 65_536
RESERVES = range(64, 1_048_576 + 1)
# serde_json refuses a list or object inside 127 others.
DEEPEST_JSON = 127
FIELDS = "label", "instance_id", "generator", "title", "protected", "reserve", "assertions", "redact", "alg"
LABEL = re.compile("urn:c2pa:[0-9a-f]{8}(-[0-9a-f]{4}){3}-[0-9a-f]{12}")
HEX = re.compile("([0-9a-fA-F]{2})*")
BARRED = re.compile("[\0-\x1f\x7f/]")
SURROGATE = re.compile("[\ud800-\udfff]")

Definition = namedtuple("Definition", "label instance generator title protected reserve assertions redactions alg")
NewAssertion = namedtuple("NewAssertion", "label kind contents")


class BadDefinition(Exception):
    """The first field that is refused."""


class Members(list):
    """The members of a JSON object, keys and values, each key as often as it is there."""


def read(data):
    """The definition that a file's bytes are."""
    if len(data) > LARGEST_FILE:
        raise BadDefinition("size")
    value = read_json(data)
    if not isinstance(value, Members):
        raise BadDefinition("json")
    # the last member of a key holds
    members = dict(value)
    if not set(members) <= set(FIELDS):
        raise BadDefinition("other")
    return Definition(*(value_of(members, field) for field in FIELDS))


# JSON


def read_json(data):
    """The JSON value (RFC 8259) that bytes are, as serde_json reads it."""
    try:
        hooks = {"object_pairs_hook": Members, "parse_float": real, "parse_int": whole, "parse_constant": real}
        value = json.loads(data.decode("utf-8"), **hooks)
        check_value(value, 1)
    except (ValueError, RecursionError):
        raise BadDefinition("json") from None
    return value


def real(text):
    """A number with a fraction, an exponent or many digits; `NaN` and `Infinity` are none."""
    number = float(text)
    if not math.isfinite(number):
        raise ValueError("no number")
    return number


def whole(text):
    return int(text) if len(text) < 20 else real(text)


def check_value(value, depth):
    """Refuses what Python's reader lets through: halves of pairs of UTF-16, and values that are nested deeper."""
    if isinstance(value, str) and SURROGATE.search(value):
        raise ValueError("half a pair")
    if isinstance(value, list) and depth > DEEPEST_JSON:
        raise ValueError("too deep")
    members = value if isinstance(value, list) else ()
    for member in members:
        for part in member if isinstance(value, Members) else [member]:
            check_value(part, depth + 1)


# Fields


def value_of(members, field):
    """The value of a field, or what stands for it where it is missing and may be."""
    if field not in members and field in DEFAULTS:
        return DEFAULTS[field]
    value = READERS[field](members.get(field))
    if value is None:
        raise BadDefinition(field)
    return value


def text_of(value):
    return value if isinstance(value, str) else None


def filled(value):
    return text_of(value) or None


def label_of(value):
    return value if isinstance(value, str) and LABEL.fullmatch(value) else None


def bytes_of(value):
    """The bytes that a text has in hex."""
    return bytes.fromhex(value) if isinstance(value, str) and HEX.fullmatch(value) else None


def protected_of(value):
    contents = bytes_of(value)
    return None if contents is None or len(contents) > MOST_PROTECTED else contents


def reserve_of(value):
    return value if type(value) is int and value in RESERVES else None


def algorithm_of(value):
    return value if isinstance(value, str) and hashing.is_known(value) else None


def texts_of(value):
    return value if type(value) is list and all(isinstance(member, str) for member in value) else None


def assertions_of(value):
    """The new assertions of a list, whose labels differ."""
    found = [assertion_of(member) for member in value] if type(value) is list else [None]
    labels = [given.label for given in found if given]
    return None if None in found or len(set(labels)) < len(labels) else found


def assertion_of(value):
    """A new assertion, or None."""
    members = dict(value) if isinstance(value, Members) else {}
    if set(members) != {"label", "kind", "hex"}:
        return None
    label, kind, contents = filled(members["label"]), members["kind"], bytes_of(members["hex"])
    if label is None or BARRED.search(label) or kind_of(label) not in (ACTIONS, ORDINARY):
        return None
    if kind not in ("cbor", "json") or contents is None or kind == "cbor" and not is_item(contents):
        return None
    return NewAssertion(label, kind, contents)


def is_item(contents):
    try:
        return bool(cbor.read_whole(contents))
    except cbor.NotCbor:
        return False


DEFAULTS = {"title": None, "assertions": [], "redact": [], "alg": hashing.DEFAULT}
READERS = {
    "label": label_of,
    "instance_id": filled,
    "generator": filled,
    "title": text_of,
    "protected": protected_of,
    "reserve": reserve_of,
    "assertions": assertions_of,
    "redact": texts_of,
    "alg": algorithm_of,
}
