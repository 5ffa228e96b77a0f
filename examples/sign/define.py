#!/usr/bin/env python3
"""Prints a definition file for `c2 plan` and `c2 embed` and their like (docs/FORMATS.md, "Definition files").

    define.py --chain CHAIN.pem [OPTIONS] > DEFINITION

CHAIN.pem has the signer's certificate and then those above it. The first action of the new manifest is `c2pa.created`. For media
that is signed already it has to be `c2pa.opened`, with a reference to the parent; and where another file is collected into it,
`c2pa.placed` has one to that file. The digests in them are in no file before the new manifest is planned, so such media is planned
twice, and --opened and --placed take them out of the first plan.
"""

import argparse
import json
import os
import sys
import uuid

import cose
from cose import Unfit, cbor

ACTIONS = "c2pa.actions.v2"
INGREDIENT = "self#jumbf=c2pa.assertions/c2pa.ingredient.v3"
# The ingredients of a new manifest in their order: the parent is the first, where the media has a store, and what is collected the last.
INGREDIENTS = INGREDIENT, INGREDIENT + "__1"
SOURCE_TYPES = "http://cv.iptc.org/newscodes/digitalsourcetype/"
KINDS = {".json": "json", ".cbor": "cbor"}
LEAST_RESERVE = 64
# The options that say what a manifest holds; sign.py hands them on.
CONTENT_OPTIONS = "title", "generator", "source", "action", "assertion", "redact", "label", "room", "alg"


def text(value):
    return ("text", value)


def mapping(*pairs):
    return ("map", tuple((text(key), value) for key, value in pairs))


def actions_of(given):
    """The actions (C2PA Technical Specification 2.x, "Actions"): how the media came to be, and what was done with it."""
    if given.opened:
        first = action_over("c2pa.opened", ingredients_of(given.opened)[0])
    else:
        source = [("digitalSourceType", text(SOURCE_TYPES + given.source))] if given.source else []
        first = mapping(("action", text("c2pa.created")), *source)
    placed = [action_over("c2pa.placed", ingredients_of(given.placed)[-1])] if given.placed else []
    actions = [first, *placed, *(mapping(("action", text(name))) for name in given.action)]
    return cbor.encode(mapping(("actions", ("list", tuple(actions)))))


def action_over(name, reference):
    """An action that says of what ingredient it is."""
    return mapping(("action", text(name)), ("parameters", mapping(("ingredients", ("list", (reference,))))))


def ingredients_of(plan):
    """The references to ingredients in their order, as the claim of an earlier plan has them."""
    claim = cbor.read_whole(cose.parts_of(cose.tbs_of(plan))[1])
    created = cbor.field(claim, "created_assertions") or ("list", ())
    found = [entry for entry in created[1] if cbor.field(entry, "url") in map(text, INGREDIENTS)]
    if not found:
        raise Unfit(f"{plan} plans a manifest without an ingredient")
    return found


def assertion_of(words):
    """The assertion of `LABEL=FILE`; the name of the file says what it holds."""
    label, sign, name = words.partition("=")
    kind = KINDS.get(os.path.splitext(name)[1])
    if not sign or kind is None:
        raise Unfit(f"--assertion {words}: LABEL=FILE is wanted, with a FILE whose name ends with .json or .cbor")
    with open(name, "rb") as file:
        return {"label": label, "kind": kind, "hex": file.read().hex()}


def assertions_of(given):
    """The actions, unless a file has them, and the assertions of files."""
    found = [assertion_of(words) for words in given.assertion]
    if any(assertion["label"] == ACTIONS for assertion in found):
        return found
    return [{"label": ACTIONS, "kind": "cbor", "hex": actions_of(given).hex()}, *found]


def definition_of(given):
    """The definition that the options stand for."""
    chain = cose.chain_of(given.chain)
    definition = {
        "label": given.label or f"urn:c2pa:{uuid.uuid4()}",
        "instance_id": f"xmp:iid:{uuid.uuid4()}",
        "generator": given.generator,
        "protected": cose.protected_header(chain).hex(),
        "reserve": max(LEAST_RESERVE, cose.message_len(chain) + given.room),
        "assertions": assertions_of(given),
    }
    if given.title is not None:
        definition["title"] = given.title
    if given.redact:
        definition["redact"] = given.redact
    if given.alg is not None:
        definition["alg"] = given.alg
    return definition


def content_options():
    """The options that say what a manifest holds, as a parser for others to build on."""
    parser = argparse.ArgumentParser(add_help=False)
    parser.add_argument("--chain", required=True, metavar="CHAIN.pem", help="the signer's certificate, and then those above it")
    parser.add_argument("--title", help="the title of the media")
    parser.add_argument("--generator", default="c2 examples/sign", help="the name of what makes the claim")
    parser.add_argument("--source", metavar="TYPE", help="how the media came to be, in the words of IPTC: digitalCapture, for one")
    parser.add_argument(
        "--action", action="append", default=[], metavar="NAME", help="a further action, as c2pa.cropped; any number"
    )
    parser.add_argument("--assertion", action="append", default=[], metavar="LABEL=FILE", help="a file of JSON or CBOR; any number")
    parser.add_argument(
        "--redact", action="append", default=[], metavar="URI", help="an older assertion to be taken out; any number"
    )
    parser.add_argument("--label", help="the manifest's own name (without it one is drawn): urn:c2pa: and a UUID")
    parser.add_argument("--room", type=int, default=0, metavar="BYTES", help="bytes kept free for what a signer adds, 5 or more")
    parser.add_argument("--alg", help="the algorithm of the manifest's digests: sha256 (as without it), sha384 or sha512")
    return parser


def main():
    parser = argparse.ArgumentParser(description="Prints a definition file for c2.", parents=[content_options()])
    parser.add_argument("--opened", metavar="PLAN", help="the media has a parent; PLAN is a first plan without this option")
    parser.add_argument("--placed", metavar="PLAN", help="another file is collected into the media; PLAN is a first plan of that")
    given = parser.parse_args()
    try:
        json.dump(definition_of(given), sys.stdout, indent=2)
        print()
    except (OSError, ValueError, Unfit, cbor.NotCbor) as reason:
        sys.exit(f"define: {reason}")


if __name__ == "__main__":
    main()
