"""CBOR (RFC 8949): a strict reader, and the deterministic bytes of an item.

An item is a tuple that begins with its type: ("uint", n); ("nint", n), whose value is -1 - n; ("bytes", b); ("text", s);
("list", items); ("map", pairs); ("tag", n, item); ("simple", n); ("half", bits), ("single", bits), ("double", bits). So two
items are equal where their types and values are, however they were spelled; the pairs of a map count in their order.

What RFC 8949 counts as well-formed is read, less texts that aren't UTF-8, maps with equal keys, and items nested deeper
than 64. The Python package cbor2 can't take its place: it loses a float's width and the numbers of some tags, and sorts the
keys of a map by length, so a question would get another id.
"""

DEEPEST = 64
BREAK = b"\xff"
NULL = ("simple", 22)
MAJOR = {"uint": 0, "nint": 1, "bytes": 2, "text": 3, "list": 4, "map": 5, "tag": 6}
FLOATS = {"half": (0xF9, 2), "single": (0xFA, 4), "double": (0xFB, 8)}


class NotCbor(Exception):
    """The bytes aren't one item."""


def read_whole(data):
    """The one item that the bytes are."""
    item, end = read_item(data, 0, 1)
    if end != len(data):
        raise NotCbor("bytes behind the item")
    return item


def read_head(data, at):
    """Major type, additional information, argument (None for an indefinite length) and the place behind the head."""
    if at >= len(data):
        raise NotCbor("the input ends")
    major, info = data[at] >> 5, data[at] & 31
    if info < 24:
        return major, info, info, at + 1
    if info < 28:
        end = at + 1 + (1 << (info - 24))
        if end > len(data):
            raise NotCbor("the input ends in a head")
        return major, info, int.from_bytes(data[at + 1 : end], "big"), end
    if info == 31 and 2 <= major <= 5:
        return major, info, None, at + 1
    raise NotCbor("reserved, or a break that ends nothing")


def read_item(data, at, depth):
    """The item at a place, and the place behind it."""
    if depth > DEEPEST:
        raise NotCbor("too deep")
    major, info, argument, at = read_head(data, at)
    if major == 0:
        return ("uint", argument), at
    if major == 1:
        return ("nint", argument), at
    if major == 2 or major == 3:
        return read_string(data, major, argument, at)
    if major == 4:
        return read_list(data, argument, at, depth)
    if major == 5:
        return read_map(data, argument, at, depth)
    if major == 6:
        inner, at = read_item(data, at, depth + 1)
        return ("tag", argument, inner), at
    return read_simple(info, argument), at


def read_simple(info, argument):
    """A simple value, or a float by its bits."""
    if info >= 25:
        return ("half", "single", "double")[info - 25], argument
    if info == 24 and argument < 32:
        raise NotCbor("a simple value below 32 in two bytes")
    return "simple", argument


def read_string(data, major, length, at):
    """A string of bytes or a text: in one piece, or in chunks of definite length up to a break."""
    kind, empty = ("bytes", b"") if major == 2 else ("text", "")
    if length is not None:
        piece, at = read_piece(data, major, length, at)
        return (kind, piece), at
    pieces = []
    while data[at : at + 1] != BREAK:
        chunk, _, length, at = read_head(data, at)
        if chunk != major or length is None:
            raise NotCbor("no chunk of this string")
        piece, at = read_piece(data, major, length, at)
        pieces.append(piece)
    return (kind, empty.join(pieces)), at + 1


def read_piece(data, major, length, at):
    """The contents of a string or of one chunk; each chunk of a text is UTF-8 by itself."""
    end = at + length
    if end > len(data):
        raise NotCbor("the input ends in a string")
    piece = bytes(data[at:end])
    if major == 2:
        return piece, end
    try:
        return piece.decode("utf-8"), end
    except UnicodeDecodeError:
        raise NotCbor("a text that isn't UTF-8") from None


def is_due(data, at, count, read):
    """Whether a list or map of `count` members, None for an indefinite length, has one more at a place."""
    return data[at : at + 1] != BREAK if count is None else read < count


def read_list(data, count, at, depth):
    items = []
    while is_due(data, at, count, len(items)):
        item, at = read_item(data, at, depth + 1)
        items.append(item)
    return ("list", tuple(items)), at + (count is None)


def read_map(data, count, at, depth):
    pairs, keys = [], set()
    while is_due(data, at, count, len(pairs)):
        key, at = read_item(data, at, depth + 1)
        if key in keys:
            raise NotCbor("equal keys")
        keys.add(key)
        value, at = read_item(data, at, depth + 1)
        pairs.append((key, value))
    return ("map", tuple(pairs)), at + (count is None)


def head(major, number, width=None):
    """A head whose argument has `width` bytes (0 for one inside the first byte), or the fewest that hold the number."""
    if width is None:
        width = 0 if number < 24 else 1 if number < 1 << 8 else 2 if number < 1 << 16 else 4 if number < 1 << 32 else 8
    if width == 0:
        return bytes([major << 5 | number])
    return bytes([major << 5 | 23 + width.bit_length()]) + number.to_bytes(width, "big")


def encode(item):
    """The deterministic bytes (RFC 8949, section 4.2.1), in which a float keeps its width.

    Pairs whose keys have the same bytes (keys that differ in the order of pairs inside them) keep their order.
    """
    kind, value = item[:2]
    if kind in ("uint", "nint"):
        return head(MAJOR[kind], value)
    if kind == "bytes":
        return head(2, len(value)) + value
    if kind == "text":
        spelled = value.encode("utf-8")
        return head(3, len(spelled)) + spelled
    if kind == "list":
        return head(4, len(value)) + b"".join(map(encode, value))
    if kind == "map":
        pairs = sorted(((encode(key), encode(member)) for key, member in value), key=lambda pair: pair[0])
        return head(5, len(value)) + b"".join(key + member for key, member in pairs)
    if kind == "tag":
        return head(6, value) + encode(item[2])
    if kind == "simple":
        return head(7, value)
    first, width = FLOATS[kind]
    return bytes([first]) + value.to_bytes(width, "big")


def field(item, key):
    """The value under a text key; None where the item is no map, has no such key, or has null there."""
    if item[0] != "map":
        return None
    wanted = ("text", key)
    value = next((value for name, value in item[1] if name == wanted), None)
    return None if value == NULL else value
