"""The pictures of a page, as SVG: the manifests as a graph, and the bytes of the file as a bar.

Nothing is told by colour alone: marks, words, and the forms of lines say the same. Texts of the file go through `shown`.
"""

import textwrap
import xml.etree.ElementTree as ET
from itertools import count

from words import RELATIONSHIPS, VERDICTS, code_in_words

NODE_WIDTH, GAP, ROW_GAP, MARGIN = 372, 36, 66, 12
LINE, PAD = 17, 10
COLUMNS = 47
MOST_ENTRIES, MOST_EDGES = 14, 400
SEEN_AT_ONCE = 3
LANE, MOST_LANES = 7, 30
INDENTED = "redacted", "remark"
BAR_WIDTH, BAR_HEIGHT, LEAST_PART = 760, 34, 3


def shown(text, most=COLUMNS):
    """A text of the file on one line: what isn't printed is spelled by its number, and what is too long is cut."""
    cut = text[: most + 1]
    spelled = "".join(letter if letter.isprintable() else f"\\u{{{ord(letter):x}}}" for letter in cut)
    return spelled if len(text) <= most and len(spelled) <= most else spelled[: most - 1] + "…"


def element(parent, tag, words=None, **attributes):
    """A further element; `klass` stands for `class`, and `_` for `-`."""
    spelled = {name.replace("klass", "class").replace("_", "-"): str(value) for name, value in attributes.items()}
    made = ET.SubElement(parent, tag, spelled)
    made.text = words
    return made


def picture(parent, klass, words, left, width, height):
    """A picture of a class, with words for those who don't see it."""
    box = f"{left} 0 {width} {height}"
    return element(parent, "svg", klass=klass, role="img", aria_label=words, viewBox=box, width=width, height=height)


# The graph


class Node:
    """A manifest in the graph: its lines, and where it stands."""

    def __init__(self, manifest, failing):
        self.manifest = manifest
        self.fails = failing is not None and belongs(failing[1], manifest)
        self.lines = list(lines_of(manifest, failing if self.fails else None))
        self.height = 2 * PAD + LINE * len(self.lines)
        self.layer = self.x = self.y = 0


def belongs(uri, manifest):
    return uri == manifest.uri or uri.startswith(manifest.uri + "/")


def lines_of(manifest, failing):
    """The lines of a node: class and text."""
    remarks = [
        word
        for word, holds in (
            ("newest", manifest.is_active),
            ("update", manifest.is_update),
            ("not reached", not manifest.is_reached),
        )
        if holds
    ]
    yield "head", " · ".join([f"Manifest {manifest.number}", *remarks])
    yield "label", shown(manifest.label)
    if manifest.title is not None:
        yield "plain", shown(f"Title: {manifest.title}")
    yield "plain", shown(f"Signer: {manifest.signer}") if manifest.signer else "Signer: no name is given"
    yield "verdict", " ".join(VERDICTS.get(manifest.verdict, ("?", manifest.verdict)))
    if failing:
        words = textwrap.wrap(f"✗ FAILS: {code_in_words(failing[0])}", COLUMNS)
        yield from (("failing", line) for line in [*words, shown(f"({failing[0]})")])
    for entry in manifest.entries[:MOST_ENTRIES]:
        yield from entry_lines(manifest, entry, failing)
    if len(manifest.entries) > MOST_ENTRIES:
        yield "plain", f"and {len(manifest.entries) - MOST_ENTRIES} more, which the table below has"


def entry_lines(manifest, entry, failing):
    if failing and failing[1] == f"{manifest.uri}/c2pa.assertions/{entry.label}":
        yield "failing", shown(f"✗ {entry.label} ({entry.remark})")
    elif entry.redacted_by is not None:
        yield "redacted", shown(entry.label, COLUMNS - len(entry.remark) - 5)
        yield "remark", entry.remark
    else:
        yield "plain", shown(f"· {entry.label} ({entry.remark})")


def layers(manifests):
    """How many steps each manifest is from the newest, at most; those that aren't reached stand behind all others."""
    by_label = {manifest.label: at for at, manifest in enumerate(manifests)}
    found = [0] * len(manifests)
    for at in reversed(range(len(manifests))):
        for _, label in manifests[at].ingredients:
            below = by_label.get(label, at)
            if manifests[at].is_reached and below < at:
                found[below] = max(found[below], found[at] + 1)
    last = max((layer for layer, manifest in zip(found, manifests) if manifest.is_reached), default=0)
    return [layer if manifest.is_reached else last + 1 for layer, manifest in zip(found, manifests)]


def place(nodes):
    """Places nodes in rows, the newest in front and above. Where each row begins and ends, and the size of all."""
    rows, bounds, top = {}, [], MARGIN
    for node in reversed(nodes):
        rows.setdefault(node.layer, []).append(node)
    widest = max(len(row) for row in rows.values())
    for layer in sorted(rows):
        row = rows[layer]
        left = max(0, min(widest, SEEN_AT_ONCE) - len(row)) * (NODE_WIDTH + GAP) / 2
        for at, node in enumerate(row):
            node.x, node.y = left + at * (NODE_WIDTH + GAP), top
        bottom = top + max(node.height for node in row)
        bounds.append((top, bottom))
        top = bottom + ROW_GAP
    return dict(zip(sorted(rows), bounds)), widest * (NODE_WIDTH + GAP) - GAP, top - ROW_GAP + MARGIN


def edges_of(nodes):
    """User, ingredient and relationship of each arrow, those of the newest first."""
    by_label = {node.manifest.label: node for node in nodes}
    found = ((user, by_label.get(label), how) for user in reversed(nodes) for how, label in user.manifest.ingredients)
    return [edge for edge in found if edge[1] is not None]


def graph(parent, manifests, failing):
    """Draws the manifests and the arrows from each to those that it was made of. How many arrows are left out."""
    nodes = [Node(manifest, failing) for manifest in manifests]
    for node, layer in zip(nodes, layers(manifests)):
        node.layer = layer
    bounds, width, height = place(nodes)
    all_edges = edges_of(nodes)
    edges = all_edges[:MOST_EDGES]
    lanes = LANE * (2 + min(MOST_LANES, sum(user.layer + 1 != child.layer for user, child, _ in edges)))
    words = "The manifests, and arrows to those that each was made of. The table below has the same in words."
    svg = picture(parent, "graph", words, -lanes - MARGIN, width + lanes + 2 * MARGIN, height + ROW_GAP // 2)
    tip = element(
        element(svg, "defs"), "marker", id="tip", viewBox="0 0 10 10", refX=9, refY=5, markerWidth=8, markerHeight=8, orient="auto"
    )
    element(tip, "path", d="M0 0L10 5L0 10z")
    draw_edges(svg, edges, bounds)
    for node in nodes:
        draw_node(svg, node)
    return len(all_edges) - len(edges)


def draw_edges(svg, edges, bounds):
    """Arrows to the next row are curves; others go round by a lane at the left, so that they pass behind no node."""
    leaving, coming = Ports(user for user, _, _ in edges), Ports(child for _, child, _ in edges)
    lane = count()
    # So ordered, arrows that leave one node or come to one don't cross.
    for user, child, relationship in sorted(edges, key=lambda edge: (edge[1].x, edge[0].x)):
        start, end = leaving.next(user), coming.next(child)
        from_y, to_y = user.y + user.height, child.y
        kind = RELATIONSHIPS.get(relationship, shown(relationship or "ingredient", 12))
        klass = "parent" if kind == "parent" else "component"
        if user.layer + 1 == child.layer:
            line = f"M{start} {from_y}C{start} {from_y + ROW_GAP},{end} {to_y - ROW_GAP},{end} {to_y}"
            at = (start + end) / 2 + 6, max(to_y - ROW_GAP / 2, (from_y + to_y) / 2)
        else:
            number = next(lane) % MOST_LANES + 1
            side, shift = -MARGIN - LANE * number, LANE * (number % 4)
            below, above = bounds[user.layer][1] + 10 + shift, bounds[child.layer][0] - 16 - shift
            line = f"M{start} {from_y}V{below}H{side}V{above}H{end}V{to_y}"
            at = end + 6, to_y - 20
        element(svg, "path", d=line, klass=f"edge {klass}", marker_end="url(#tip)")
        element(svg, "text", kind, klass="kind", x=at[0], y=at[1])


class Ports:
    """Places side by side at an edge of a node, one for each of its arrows."""

    def __init__(self, nodes):
        self.counts, self.used = {}, {}
        for node in nodes:
            self.counts[node] = self.counts.get(node, 0) + 1

    def next(self, node):
        self.used[node] = self.used.get(node, 0) + 1
        return round(node.x + NODE_WIDTH * self.used[node] / (self.counts[node] + 1), 1)


def draw_node(svg, node):
    """A node is a picture of its own, so that what is too wide is cut at its border."""
    manifest = node.manifest
    klass = "node" + " fails" * node.fails + " update" * manifest.is_update + " unreached" * (not manifest.is_reached)
    inner = element(svg, "svg", x=node.x, y=node.y, width=NODE_WIDTH, height=node.height)
    element(inner, "rect", klass=klass, x=2, y=2, width=NODE_WIDTH - 4, height=node.height - 4, rx=4)
    for at, (kind, words) in enumerate(node.lines, 1):
        element(inner, "text", words, klass=kind, x=PAD + 2 + 14 * (kind in INDENTED), y=PAD + LINE * at - 4)


# The bar


def bar(parent, history):
    """Draws how many of the file's bytes the hash covers, how many it leaves out, and how many hold the manifests."""
    parts = parts_of(history)
    words = "; ".join(f"{number:,} bytes {words}" for _, number, words in parts)
    svg = picture(parent, "bar", words, 0, BAR_WIDTH, BAR_HEIGHT)
    draw_patterns(element(svg, "defs"))
    left, whole = 0, max(1, sum(number for _, number, _ in parts))
    free = BAR_WIDTH - LEAST_PART * sum(number > 0 for _, number, _ in parts)
    for kind, number, _ in parts:
        width = round(LEAST_PART * (number > 0) + free * number / whole, 1)
        element(svg, "rect", klass=f"part {kind}", x=left, y=1, width=width, height=BAR_HEIGHT - 2)
        left += width
    return parts


def parts_of(history):
    """Class, number of bytes and words of each part of the file."""
    store, counts = history.range[1], history.counts
    held = ("store", store, "hold the manifests")
    if counts is None:
        return [("unknown", history.size - store, "are the rest: a file that isn't valid isn't counted"), held]
    return [
        ("covered", counts["covered"], "are covered by the hash: no change of them goes unseen"),
        ("outside", counts["outside"], "are left out by the hash: they may be changed"),
        held,
    ]


def draw_patterns(defs):
    for name, line in (("hatched", "M0 8L8 0"), ("dotted", "M2 2h2")):
        pattern = element(defs, "pattern", id=name, width=8, height=8, patternUnits="userSpaceOnUse")
        element(pattern, "path", d=line)
