"""Fields of the items that hash assertions are, and why one isn't as it must be. A null counts as absent."""

import cbor
from manifests import is_a


class BadBinding(Exception):
    """A code of the check list."""

    @property
    def code(self):
        return self.args[0]


def wrong_form():
    return BadBinding("profile.hash.form")


def unsigned(item, key):
    """A number that isn't negative, in a field that must be there."""
    value = cbor.field(item, key)
    if not is_a("uint", value):
        raise wrong_form()
    return value[1]


def string(item, key, kind):
    """A text or bytes, in a field that must be there."""
    value = cbor.field(item, key)
    if not is_a(kind, value):
        raise wrong_form()
    return value[1]


def maps_in(item, key):
    """The maps of a list in a field; None where the field is absent."""
    value = cbor.field(item, key)
    if value is None:
        return None
    if not is_a("list", value) or not all(is_a("map", member) for member in value[1]):
        raise wrong_form()
    return value[1]
