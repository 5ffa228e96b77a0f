"""COSE_Sign1 messages over claims (RFC 9052, C2PA Technical Specification 2.x), by the Python package `cryptography`.

The key decides the algorithm: P-256 ES256, P-384 ES384, RSA PS256, Ed25519 EdDSA (RFC 9053, section 2, and RFC 8230). The
protected header has the algorithm and the certificates, so both are signed. CBOR is that of examples/judge.
"""

import os
import sys

from cryptography import x509
from cryptography.hazmat.primitives import hashes, serialization
from cryptography.hazmat.primitives.asymmetric import ec, ed25519, padding, rsa
from cryptography.hazmat.primitives.asymmetric.utils import decode_dss_signature

sys.path.insert(0, os.path.join(os.path.dirname(os.path.abspath(__file__)), "..", "judge"))
import cbor

ALGORITHM, X5CHAIN = ("uint", 1), ("uint", 33)
SIGN1_TAG = 18
ES256, ES384, PS256, EDDSA = -7, -35, -37, -8
CURVES = {"secp256r1": (ES256, hashes.SHA256()), "secp384r1": (ES384, hashes.SHA384())}
FEWEST_RSA_BITS = 2048
EDDSA_BYTES = 64
PEM_BEGIN = b"-----BEGIN CERTIFICATE-----"


class Unfit(Exception):
    """A key, certificates or bytes to be signed that can't be used; the text says why."""


def algorithm_of(key):
    """The number of the algorithm that goes with a public key."""
    if isinstance(key, ec.EllipticCurvePublicKey) and key.curve.name in CURVES:
        return CURVES[key.curve.name][0]
    if isinstance(key, rsa.RSAPublicKey) and key.key_size >= FEWEST_RSA_BITS:
        return PS256
    if isinstance(key, ed25519.Ed25519PublicKey):
        return EDDSA
    raise Unfit(f"the key is none of P-256, P-384, Ed25519, and RSA of {FEWEST_RSA_BITS} bits or more")


def signature_len(key):
    """How many bytes a signature of a public key has."""
    if algorithm_of(key) == EDDSA:
        return EDDSA_BYTES
    width = (key.key_size + 7) // 8
    return width if isinstance(key, rsa.RSAPublicKey) else 2 * width


def signature(key, tbs):
    """The signature of a private key over bytes, as COSE has it."""
    if isinstance(key, ed25519.Ed25519PrivateKey):
        return key.sign(tbs)
    if isinstance(key, rsa.RSAPrivateKey):
        digest = hashes.SHA256()
        return key.sign(tbs, padding.PSS(padding.MGF1(digest), digest.digest_size), digest)
    # COSE has the two numbers side by side, each as long as one of the key's (RFC 9053, section 2.1).
    width = (key.key_size + 7) // 8
    numbers = decode_dss_signature(key.sign(tbs, ec.ECDSA(CURVES[key.curve.name][1])))
    return b"".join(number.to_bytes(width, "big") for number in numbers)


def protected_header(chain):
    """The algorithm and the certificates (RFC 9360: one alone, or a list of them), the signer's first."""
    number = algorithm_of(chain[0].public_key())
    encoded = [("bytes", certificate.public_bytes(serialization.Encoding.DER)) for certificate in chain]
    certificates = encoded[0] if len(encoded) == 1 else ("list", tuple(encoded))
    return cbor.encode(("map", ((ALGORITHM, ("nint", -1 - number)), (X5CHAIN, certificates))))


def message(protected, signed):
    """A COSE_Sign1 message without its payload, which is the claim; c2 pads it to what is reserved."""
    members = ("bytes", protected), ("map", ()), cbor.NULL, ("bytes", signed)
    return cbor.encode(("tag", SIGN1_TAG, ("list", members)))


def message_len(chain):
    """How many bytes a message of the signer has."""
    return len(message(protected_header(chain), bytes(signature_len(chain[0].public_key()))))


def parts_of(tbs):
    """The protected header and the claim in the bytes that are to be signed (the Sig_structure of RFC 9052, section 4.4)."""
    try:
        kind, members = cbor.read_whole(tbs)[:2]
    except cbor.NotCbor as reason:
        raise Unfit(f"the bytes to be signed are no CBOR: {reason}") from None
    if kind != "list" or [member[0] for member in members] != ["text", "bytes", "bytes", "bytes"]:
        raise Unfit("the bytes to be signed are no Sig_structure")
    return members[1][1], members[3][1]


def chain_of(name):
    """The certificates of a PEM file in their order, the signer's first."""
    with open(name, "rb") as file:
        blocks = file.read().split(PEM_BEGIN)[1:]
    try:
        chain = [x509.load_pem_x509_certificate(PEM_BEGIN + block) for block in blocks]
    except ValueError as reason:
        raise Unfit(f"{name} has a malformed certificate: {reason}") from None
    if not chain:
        raise Unfit(f"{name} has no certificate in PEM")
    return chain


def key_of(name):
    """The private key of a PEM file."""
    with open(name, "rb") as file:
        contents = file.read()
    try:
        return serialization.load_pem_private_key(contents, None)
    except TypeError:
        raise Unfit(f"{name} is encrypted: `openssl pkey -in {name}` decrypts it") from None
    except ValueError as reason:
        raise Unfit(f"{name} has no private key in PEM: {reason}") from None


def tbs_of(name):
    """The bytes to be signed, from a file that has the line of `c2 plan`."""
    with open(name, encoding="ascii", errors="replace") as file:
        word, _, digits = file.readline().strip().partition(" ")
    try:
        if word == "tbs":
            return bytes.fromhex(digits)
    except ValueError:
        pass
    raise Unfit(f"{name} isn't what `c2 plan` prints: `tbs` and hex digits")
