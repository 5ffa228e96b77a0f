#!/usr/bin/env python3
"""Signs what `c2 plan` prints, and prints the signed message for `c2 embed`.

    message.py --key KEY.pem PLAN > MESSAGE

PLAN is a file with the line of `c2 plan`. The bytes in it name the algorithm and the signer's certificate; KEY.pem must be the
private key of this certificate. Nothing else is wanted here, so the key can stay on a machine that the media never comes to.
"""

import argparse
import sys

import cose
from cose import Unfit, cbor
from cryptography import x509
from cryptography.hazmat.primitives.serialization import Encoding, PublicFormat


def signer_of(protected):
    """The certificate of the signer that a protected header has."""
    header = cbor.read_whole(protected)
    found = next((value for key, value in header[1] if key == cose.X5CHAIN), None) if header[0] == "map" else None
    if found is not None and found[0] == "list" and found[1]:
        found = found[1][0]
    if found is None or found[0] != "bytes":
        raise Unfit("the protected header has no certificate")
    return x509.load_der_x509_certificate(found[1])


def message_of(key, tbs):
    """The message of a key over the bytes to be signed, which name the key's own certificate."""
    protected, _ = cose.parts_of(tbs)
    own, named = (
        public.public_bytes(Encoding.DER, PublicFormat.SubjectPublicKeyInfo)
        for public in (key.public_key(), signer_of(protected).public_key())
    )
    if own != named:
        raise Unfit("the key isn't that of the signer's certificate, which is the first of the chain")
    return cose.message(protected, cose.signature(key, tbs))


def main():
    parser = argparse.ArgumentParser(description="Signs what `c2 plan` prints, and prints the signed message for `c2 embed`.")
    parser.add_argument("--key", required=True, metavar="KEY.pem", help="the signer's private key")
    parser.add_argument("plan", metavar="PLAN", help="a file with the line that `c2 plan` prints")
    given = parser.parse_args()
    try:
        sys.stdout.buffer.write(message_of(cose.key_of(given.key), cose.tbs_of(given.plan)))
    except (OSError, ValueError, Unfit, cbor.NotCbor) as reason:
        sys.exit(f"message: {reason}")


if __name__ == "__main__":
    main()
