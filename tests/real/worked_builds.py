#!/usr/bin/env python3
"""Compares what builder.py makes with numbers that were worked out by hand, with the files that built_films.py writes, and
with what rules.py says of each built file. Prints what was compared; the status is 1 where something differs.
"""

import hashlib
import sys

import built_films
import cbor
import jumbf
from builder import embed, fill_of, line_of, padded, plan, read_definition, read_message
from drafts import APP0, provenance_box
from make_store import jpeg
from manifests import Manifest, manifests_of
from media import media_of
from tables import Approving
from store import report
from validate_rows import photographed

SMALL = b"\xff\xd8" + APP0 + b"\xff\xd9"
FILM = built_films.FTYP + built_films.MDAT
LABEL = "urn:c2pa:00000000-0000-4000-8000-000000000000"
LATER = LABEL[:-1] + "1"
URL = "self#jumbf=/c2pa/"
ASSERTIONS = "/c2pa.assertions/"
DEFINITION = (
    f'{{"label":"{LABEL}","instance_id":"xmp:iid:sample","generator":"c2","protected":"a10126","reserve":256,"assertions":'
    '[{"label":"c2pa.actions.v2","kind":"cbor","hex":"a167616374696f6e7381a166616374696f6e6c633270612e63726561746564"}]}'
).encode()
LATER_DEFINITION = DEFINITION.replace(LABEL.encode(), LATER.encode())
MESSAGE = bytes.fromhex("d28443a10126a0f65840") + bytes(64)
# keys that differ only in the order of pairs inside them
ODD_HEADER = bytes.fromhex("a2a20001010200a20102000100")


def with_reserve(reserve):
    return DEFINITION.replace(b'"reserve":256', f'"reserve":{reserve}'.encode())


def with_redactions(*entries, definition=DEFINITION):
    listed = ",".join(f'"{entry}"' for entry in entries)
    return definition[:-1] + f',"redact":[{listed}]}}'.encode()


def changed(contents, at):
    return contents[:at] + bytes([contents[at] ^ 1]) + contents[at + 1 :]


def approving(*_):
    return [Approving()]


class Check:
    """Counts and prints what was compared."""

    def __init__(self):
        self.compared = self.differences = 0

    def same(self, what, found, known):
        self.compared += 1
        if found == known:
            shown = str(known) if len(str(known)) < 90 else f"{len(known)} bytes or characters"
            print(f"{what}: {shown}")
        else:
            self.differences += 1
            print(f"DIFFERS {what}: {str(found)[:300]}, not {str(known)[:300]}")

    def line(self, what, told, known):
        self.same(what, line_of(told)[0], known)

    def valid(self, what, contents, known):
        self.same(what + ", validated", report("validate", contents, approving())[0], known)


def sizes(contents):
    """Lengths of the boxes and items of the last manifest in a file's store, and of the store and its range."""
    media = media_of(contents)
    read = Manifest(media.store, manifests_of(jumbf.read(media.store))[-1])
    length = lambda box: box.end - box.start
    found = {"store": len(media.store), "range": media.length, "manifest": length(read.box), "signature box": length(read.signature)}
    found |= {"claim": len(read.claim.encoded)}
    names = {b"c2as": "assertion store", b"c2cl": "claim box"}
    found |= {names[box.uuid[:4]]: length(box) for box in read.box.superboxes() if box.uuid[:4] in names}
    for label, box in read.labelled.items():
        found |= {label: length(box), label + " item": box.children[1].end - box.children[1].inside}
    return found


def check_sizes(check, what, contents, **known):
    found = sizes(contents)
    for name, number in known.items():
        name = name.replace("_", " ")
        check.same(f"{what}, {name}", found[name], number)


def check_fills(check):
    for need, known in (0, (None, None)), (4, None), (5, (0, None)), (28, (23, None)), (29, (18, 0)), (182, (176, None)):
        check.same(f"fill of {need}", fill_of(need), known)
    for need, known in (261, (255, None)), (262, (250, 0)):
        check.same(f"fill of {need}", fill_of(need), known)
    string = lambda count, key: 0 if count is None else key + len(cbor.head(2, count)) + count
    every = [*range(70_000), *range(1_048_000, 1_048_577)]
    costs = [None if fill is None else string(fill.pad, 4) + string(fill.pad2, 5) for fill in map(fill_of, every)]
    check.same("fills that cost another number", sum(cost not in (None, need) for need, cost in zip(every, costs)), 0)
    check.same("fills that there aren't", [need for need in [*every, 1_048_577] if fill_of(need) is None], [1, 2, 3, 4, 1_048_577])


def check_small(check):
    """A JPEG without a store: what is signed, the file, its message."""
    _, tbs = plan(SMALL, DEFINITION)
    check.same("to be signed, digits", len(tbs.hex()), 744)
    check.same("to be signed, front", tbs.hex()[:40], "846a5369676e61747572653143a1012640590160")
    told = embed(SMALL, DEFINITION, MESSAGE)
    check.line("a small JPEG", told, "embedded 20 1141")
    out = told[0]
    check.same("its length", len(out), 1_163)
    check.same("what stands around", out[:20] + out[1161:], SMALL)
    check_sizes(check, "its store", out, claim=352, claim_box=407, signature_box=312, assertion_store=293, manifest=1_091, store=1_129)
    found = sizes(out)
    check.same("hash item and box", (found["c2pa.hash.data item"], found["c2pa.hash.data"]), (100, 156))
    check.same("actions item and box", (found["c2pa.actions.v2 item"], found["c2pa.actions.v2"]), (31, 88))
    check.same("pad of the hash", out.count(b"cpad" + b"\x4e" + bytes(14) + b"dhash"), 1)
    check.valid("a small JPEG", out, "valid manifests=1 assertions=2 covered=22 outside=0")
    silent = f"failing profile.verdict.missing {URL}{LABEL}/c2pa.signature"
    check.same("a small JPEG, validated without judges", report("validate", out)[0], silent)
    check.same("Sig_structure", len(tbs), 372)
    message = padded(read_message(MESSAGE, read_definition(DEFINITION)), 256)
    check.same("the message and the padded one", (len(MESSAGE), len(message)), (74, 256))
    check.same("the padded message", message, MESSAGE[:6] + b"\xa1\x63pad\x58\xb0" + bytes(176) + MESSAGE[7:])
    check.same("the padded message stands in the file", out.count(message), 1)
    return out


def check_changed(check, out):
    hashed, actions = f"{URL}{LABEL}{ASSERTIONS}c2pa.hash.data", f"{URL}{LABEL}{ASSERTIONS}c2pa.actions.v2"
    told = report("validate", changed(out, 19), approving())[0]
    check.same("a changed byte of APP0", told, f"failing assertion.dataHash.mismatch {hashed}")
    told = report("validate", changed(out, out.index(b"actions\x81")), approving())[0]
    check.same("a changed byte of the actions", told, f"failing assertion.hashedURI.mismatch {actions}")
    told = embed(changed(out, 19), LATER_DEFINITION, MESSAGE, approving())
    check.line("on top of a changed byte", told, f"build ParentFails assertion.dataHash.mismatch {hashed}")
    check.line("the same label again", embed(out, DEFINITION, MESSAGE, approving()), f"build LabelTaken {LABEL}")


def check_twice(check, out):
    told = embed(out, LATER_DEFINITION, MESSAGE, approving())
    check.line("a second time", told, "embedded 20 2667")
    check.same("its length", len(told[0]), 2_689)
    check_sizes(check, "its store", told[0], claim=443, manifest=1_526, store=2_655)
    found = sizes(told[0])
    check.same("ingredient item and box", (found["c2pa.ingredient.v3 item"], found["c2pa.ingredient.v3"]), (284, 344))
    carried = media_of(out).store[38:]
    check.same("the first manifest, byte for byte", media_of(told[0]).store[38 : 38 + 1_091], carried)
    check.valid("a second time", told[0], "valid manifests=2 assertions=5 covered=22 outside=0")


def check_photograph(check):
    media, _ = photographed([None])
    contents = media_of(media).store
    check.valid("a photograph", media, "valid manifests=1 assertions=4 covered=3145728 outside=0")
    told = embed(media, DEFINITION, MESSAGE, approving())
    check.same("on a photograph, the first manifest", media_of(told[0]).store[38 : len(contents)], contents[38:])
    check.valid("on a photograph", told[0], "valid manifests=2 assertions=7 covered=3145728 outside=0")


def check_refusals(check):
    for reserve, known in (78, "build ReserveTooSmall 79"), (73, "build ReserveTooSmall 74"), (79, "embedded 20 964"), (74, "embedded 20 959"):
        check.line(f"a reserve of {reserve}", embed(SMALL, with_reserve(reserve), MESSAGE), known)
    entry = f"{URL}m{ASSERTIONS}a"
    known = f"build RedactionRefused {entry} profile.redaction.target"
    check.line("a redaction without a store", embed(SMALL, with_redactions(entry), MESSAGE), known)
    check.line("an empty object", embed(SMALL, b"{}", MESSAGE), "build BadDefinition label")
    check.line("another header", embed(SMALL, DEFINITION, MESSAGE.replace(b"\x43\xa1\x01\x26", b"\x41\xa0")), "build BadSignature protected")
    odd = MESSAGE[:6] + ODD_HEADER + MESSAGE[7:]
    check.line("a message that isn't plain", embed(SMALL, DEFINITION, odd), "build BadSignature plain")
    check.line("an empty file", embed(b"", DEFINITION, MESSAGE), "build MediaRefused NotMedia 0")


def with_algorithm(name, definition=DEFINITION):
    return definition[:-1] + f',"alg":"{name}"}}'.encode()


def check_algorithms(check):
    """The longer digests: 16 or 32 bytes more in each of two references and the binding, and in the ingredient's two and its own reference."""
    for name, front, line, numbers in (
        ("sha384", "80", "embedded 20 1189", {"store": 1_177, "claim": 384, "assertion store": 309, "c2pa.hash.data item": 116}),
        ("sha512", "a0", "embedded 20 1237", {"store": 1_225, "claim": 416, "assertion store": 325, "c2pa.hash.data item": 132}),
    ):
        _, tbs = plan(SMALL, with_algorithm(name))
        check.same(f"to be signed by {name}, digits", len(tbs.hex()), {"sha384": 808, "sha512": 872}[name])
        check.same(f"to be signed by {name}, front", tbs.hex()[:40], "846a5369676e61747572653143a10126405901" + front)
        told = embed(SMALL, with_algorithm(name), MESSAGE)
        check.line(f"a small JPEG by {name}", told, line)
        check.same(f"its length by {name}", len(told[0]), {"sha384": 1_211, "sha512": 1_259}[name])
        found = sizes(told[0])
        check.same(f"its store by {name}", {key: found[key] for key in numbers}, numbers)
        check.valid(f"a small JPEG by {name}", told[0], "valid manifests=1 assertions=2 covered=22 outside=0")
        item = {"sha384": 156, "sha512": 172}[name]
        check.same(f"the binding of a film by {name}", sizes(embed(FILM, with_algorithm(name), MESSAGE)[0])["c2pa.hash.bmff.v2 item"], item)
    check.same("an algorithm that is named in vain", embed(SMALL, with_algorithm("sha256"), MESSAGE), embed(SMALL, DEFINITION, MESSAGE))
    check.line("an algorithm that isn't known", embed(SMALL, with_algorithm("md5"), MESSAGE), "build BadDefinition alg")


def check_parents_algorithms(check):
    """A child and a parent by different algorithms. The digests of the ingredient are worked out here from the parent's bytes."""
    for below, above, line in ("sha512", "sha256", "embedded 20 2763"), ("sha256", "sha512", "embedded 20 2859"):
        first = embed(SMALL, with_algorithm(below), MESSAGE)[0]
        told = embed(first, with_algorithm(above, LATER_DEFINITION), MESSAGE, approving())
        check.line(f"a child by {above} of a parent by {below}", told, line)
        check.valid(f"a child by {above} of a parent by {below}", told[0], "valid manifests=2 assertions=5 covered=22 outside=0")
        store = media_of(told[0]).store
        parent, child = manifests_of(jumbf.read(store))
        signature = Manifest(store, parent).signature
        for what, box in ("manifest", parent), ("signature", signature):
            digest = hashlib.new(above, store[box.inside : box.end]).digest()
            check.same(f"the digest of the parent's {what} by {above}", store.count(digest, child.start), 1)


def check_films(check):
    told = embed(FILM, DEFINITION, MESSAGE)
    check.line("a film", told, "embedded 25 1220")
    check.same("its length", len(told[0]), 1_245)
    check_sizes(check, "its store", told[0], claim=355, store=1_175, range=1_220)
    found = sizes(told[0])
    check.same("hash item and box", (found["c2pa.hash.bmff.v2 item"], found["c2pa.hash.bmff.v2"]), (140, 199))
    check.valid("a film", told[0], "valid manifests=1 assertions=2 covered=9 outside=16")
    check.same("the film as built_films.py writes it", told[0], built_films.film_behind())
    open_film = built_films.FTYP + bytes(4) + FILM[20:]
    check.line("a film with an open box", embed(open_film, DEFINITION, MESSAGE), "build OpenBox 16")
    middle = built_films.film_in_front()
    told = embed(middle, LATER_DEFINITION, MESSAGE, approving())
    check.line("a film with its store in the middle", told, "embedded 1245 2792")
    check.same("what is left of that store", told[0][16:1_236], (1_220).to_bytes(4, "big") + b"free" + bytes(1_212))
    check.valid("a film with its store in the middle", told[0], "valid manifests=2 assertions=5 covered=1229 outside=16")
    check.same("it as built_films.py writes it", told[0], built_films.film_twice())
    again = embed(embed(FILM, DEFINITION, MESSAGE)[0], LATER_DEFINITION, MESSAGE, approving())
    check.line("a film signed twice", again, "embedded 25 2792")
    check.same("its C2PA box", again[0][25:], provenance_box(b"manifest\0" + bytes(8) + media_of(again[0]).store))


def check_samples(check):
    for count, known in (1_000, "sample 1000 media=1004004 file=1005145 store=1129"), (20_000, "sample 20000 media=20080004 file=20081145 store=1129"):
        pieces = (bytes((31 * i + 7 * j) % 256 for j in range(1_000)) for i in range(256))
        every = [b"\xff\xfe\x03\xea" + piece for piece in pieces]
        media = b"\xff\xd8" + b"".join(every[i % 256] for i in range(count)) + b"\xff\xd9"
        told = embed(media, DEFINITION, MESSAGE)
        line = f"sample {count} media={len(media)} file={len(told[0])} store={len(media_of(told[0]).store)}"
        check.same("generated", line, known)
        check.valid("generated", told[0], f"valid manifests=1 assertions=2 covered={len(media)} outside=0")
        check.same("generated, less its store", hashlib.sha256(told[0][: told[1]] + told[0][told[1] + told[2] :]).digest(), hashlib.sha256(media).digest())


def main():
    check = Check()
    check_fills(check)
    out = check_small(check)
    check_changed(check, out)
    check_twice(check, out)
    check_photograph(check)
    check_refusals(check)
    check_algorithms(check)
    check_parents_algorithms(check)
    check_films(check)
    check_samples(check)
    print(f"{check.compared} compared, {check.differences} differences")
    return 1 if check.differences else 0


if __name__ == "__main__":
    sys.exit(main())
