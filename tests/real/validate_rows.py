"""Small stores for `validate`, a choice from rule_rows.py, with a judge who approves; a photograph; and what changed bytes of a valid
file come to.
"""

import rule_rows
import tables
from drafts import ACTIONS, APP0, Assertion, DataHash, Jpeg, Manifest
from make_store import NULL, array, data, mapping, open_map, sign1, tag, text
from media import media_of
from store import report

# Rows besides the first of each code.
CHOSEN = """
gathered assertions
a claim without an algorithm, and a binding without one
a claim with other fields, an open map and nulls
the references' own algorithm holds
an ingredient
a manifest that nobody names isn't looked at
an older manifest with another hash
an update as an ingredient
a redacted assertion
another digest of a touched manifest
a range more
1,024 exclusions
a message that is no CBOR
the algorithm of claimSignature
a touched manifest without claimSignature
the second of two
two entries with one label
an entry's algorithm
a label with a line feed
a changed byte of an action
an entry behind a redacted one
a box without a label
a box that no entry of an older manifest lists
the second of three redactions
no hash in an older manifest
a data hash and a BMFF hash
a later manifest
a binding that is no CBOR
the binding's algorithm
ranges that overlap
a range whose end is no number of 64 bits
a BMFF hash in a JPEG
the claim's signature is self#jumbf=/c2pa/n/c2pa.signature
a message of three members
an entry's URL is self#jumbf=/c2pa/n/c2pa.assertions/test.note
a redaction in a manifest that isn't there
a redaction of c2pa.hash.boxes
a redaction of c2pa.ingredient.v9__2
a redaction of x
a claim cut short
a claim of version 1 without an instance
a claim of version 1 with both lists
a claim of version 2 with both lists
a claim under the label c2pa.claim of the other version
a redaction by a claim of version 1
an ingredient of version 1 in a claim of version 1
another digest of the signature, version 2
another digest, version 1
an update by an ingredient of version 2
an update with an older ingredient besides
the older field in version 3
all by sha384, which the claim names
all by sha512, which the claim names
a binding by sha384, in a claim by sha256
an entry by sha512
a reference to a manifest by sha384
a manifest by sha512 below one by sha256
32 bytes of a digest by sha512
48 bytes of a digest by sha512 as one by sha384
zeros behind a digest
""".strip().split("\n")


def rows():
    """The first store of each code, those that were chosen, and those where an order or a shared manifest matters."""
    besides = {what for group in (rule_rows.order_rows, rule_rows.shared_rows) for what, _, _ in group()}.union(CHOSEN)
    seen = set()
    for what, told, drafts in rule_rows.rows():
        kind, code, *_ = told.split()
        code = code if kind == "failing" else kind
        is_refused = any(draft.signature in rule_rows.REFUSED for draft in drafts)
        if not is_refused and (code not in seen or what in besides):
            seen.add(code)
            besides.discard(what)
            yield what, media_of(Jpeg().file(drafts)).store
    assert not besides, besides


# A photograph: a header, a scan of bytes that follow a rule, and the end. With the two bytes before its store it has 3 * 2^20 bytes.
SCAN = bytes.fromhex("ffda0008010100003f00")
# What of its picture comes many times.
LINES = bytes(range(251)) * 12_532
PICTURE = APP0 + SCAN + bytes(at % 251 for at in range(3_145_696)) + b"\xff\xd9"


def camera(ranges, version=2):
    """A manifest as a camera's program may write it, whose binding excludes these ranges, its claim of a version."""
    stamped = mapping(("sigTst", mapping(("tstTokens", array(mapping(("val", data(b"\0"))))))), ("pad", data(bytes(8))))
    draft = Manifest(
        "m",
        Assertion("c2pa.thumbnail.claim.jpeg", b"\xff\xd8\xff\xd9", b"bidb"),
        Assertion("c2pa.actions.v2", ACTIONS),
        Assertion("c2pa.metadata", b'{"dc:title":"a photograph"}', b"json"),
        rule_rows.with_(DataHash(), ranges=ranges),
        version=version,
    )
    later = {
        "dc:title": NULL,
        "claim_generator_info": open_map(("version", text("1")), ("name", text("a camera"))),
        "gathered_assertions": NULL,
        "redacted_assertions": NULL,
        "alg": NULL,
    }
    draft.claim_fields = later if version == 2 else {}
    draft.change_message = lambda _: tag(18, sign1(unprotected=stamped))
    return draft


def photographed(ranges, version=2):
    """A photograph with such a manifest, and what `validate` says."""
    contents = Jpeg(rest=PICTURE).file([camera(ranges, version)])
    return contents, report("validate", contents, [rule_rows.verdicts_on(contents)])


def more():
    """Further rows of the table: the photograph, and what changed files come to."""
    return photographs() + changed()


def photographs():
    """Rows of a photograph that is valid, of one with a changed byte, and of one with a range that ends far behind the file."""
    contents, told = photographed([None])
    assert told == ("valid manifests=1 assertions=4 covered=3145728 outside=0", 0), told
    text = tables.settings(packets="", pieces="1 7 65536")
    text += photograph_row("a photograph", contents)
    at = len(contents) - 3_145_709
    other = contents[:at] + bytes([contents[at] + 1]) + contents[at + 1 :]
    text += photograph_row("a photograph whose header has another last byte", other)
    older, told = photographed([None], version=1)
    assert told == ("valid manifests=1 assertions=4 covered=3145728 outside=0", 0), told
    text += photograph_row("a photograph whose claim is of version 1", older)
    contents, told = photographed([(0, 1 << 63)])
    assert told == (rule_rows.failing("profile.hash.form", "m" + rule_rows.HASH), 1), told
    return text + photograph_row("a photograph with a range that ends far behind the file", contents)


def photograph_text(contents):
    """A photograph as a table has it, its picture by the piece that comes many times."""
    at = contents.index(LINES)
    return f"{contents[:at].hex()} 12532*{LINES[:251].hex()} {contents[at + len(LINES) :].hex()}"


def photograph_row(what, contents):
    judge = tables.Approving()
    line, status = report("validate", contents, [judge])
    return tables.row(what, photograph_text(contents), status, line, judge.asked)


def changed():
    """Rows of the first row's file: what is said of it, and the statuses where a byte of its store is one more, for each byte in order; its
    question alone is approved."""
    _, _, drafts = next(rule_rows.rows())
    contents = Jpeg().file(drafts)
    verdicts = rule_rows.verdicts_on(contents)
    (identity,) = verdicts
    text = tables.settings(judges="list:" + f"{identity} approved".encode().hex())
    text += tables.row("the first row's file, whose one question a verdict file approves", contents.hex(), *reversed(report("validate", contents, [verdicts])), 1)
    media = media_of(contents)
    at = contents.index(media.store)
    statuses = []
    for place in range(at, at + len(media.store)):
        other = bytearray(contents)
        other[place] = (other[place] + 1) % 256
        statuses.append(report("validate", bytes(other), [verdicts])[1])
    # nothing binds the name of an active manifest whose URIs are all relative
    assert [at for at, status in enumerate(statuses) if status == 0] == [media.store.index(b"\x03m\0") + 1]
    behind = len(contents) - at - len(media.store)
    return text + tables.settings(view="changes", around=f"{at}/{behind}") + f"# changed bytes of its store\n. => {''.join(map(str, statuses))}\n"
