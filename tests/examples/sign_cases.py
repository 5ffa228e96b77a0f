#!/usr/bin/env python3
"""The example examples/sign with c2: each algorithm, media that is signed already, redactions, and what is refused.

    sign_cases.py [C2]      runs the example with C2 (the repository's ./c2)

Keys and certificates are openssl's, the verdicts are those of examples/judge, and valid is what c2 says is.
"""

import json
import os
import shlex
import shutil
import subprocess
import sys
import tempfile
import unittest

HERE = os.path.dirname(os.path.abspath(__file__))
TOP = os.path.join(HERE, "..", "..")
sys.path.insert(0, os.path.join(TOP, "examples", "judge"))
import cbor

C2 = os.path.abspath(sys.argv[1] if len(sys.argv) > 1 else os.path.join(TOP, "c2"))
ALGORITHMS = {
    "ES256": ["ec", "-pkeyopt", "ec_paramgen_curve:P-256"],
    "ES384": ["ec", "-pkeyopt", "ec_paramgen_curve:P-384"],
    "PS256": ["rsa:2048"],
    "EdDSA": ["ed25519"],
}
AUTHORITY = "-addext basicConstraints=critical,CA:TRUE -addext keyUsage=critical,keyCertSign"
SIGNER = (
    "-addext basicConstraints=critical,CA:FALSE -addext keyUsage=critical,digitalSignature -addext extendedKeyUsage=emailProtection"
)
PICTURE = b"\xff\xd8\xff\xe0\0\x10JFIF\0\1\2\0\0\1\0\1\0\0\xff\xfe\0\x08a tree\xff\xd9"
FILM = bytes.fromhex("00000010 66747970 69736f6d 00000000 0000000e 6d646174") + b"a tree"
# A chunk table with one place, that of the film's bytes, and the boxes around it.
TABLE = bytes.fromhex("0000003c 6d6f6f76 00000034 7472616b 0000002c 6d646961 00000024 6d696e66 0000001c 7374626c 00000014 7374636f 00000000 00000001 00000054")
INDEXED = FILM[:16] + TABLE + FILM[16:]
PARENT = "self#jumbf=c2pa.assertions/c2pa.ingredient.v3"
COMPONENT = PARENT + "__1"


def certificate(folder, name, key, above=None, extensions=SIGNER):
    """A key and a certificate, which the one above has signed, or the key itself."""
    signed = ["-CA", f"{above}.pem", "-CAkey", f"{above}.key"] if above else []
    words = [
        "openssl",
        "req",
        "-x509",
        *signed,
        "-newkey",
        *key,
        "-noenc",
        "-days",
        "30",
        "-subj",
        f"/CN=A {name}",
        *extensions.split(),
    ]
    subprocess.run([*words, "-keyout", f"{name}.key", "-out", f"{name}.pem"], cwd=folder, check=True, stderr=subprocess.DEVNULL)


class Signing(unittest.TestCase):
    @classmethod
    def setUpClass(cls):
        cls.made = tempfile.TemporaryDirectory()
        certificate(cls.made.name, "root", ALGORITHMS["ES256"], extensions=AUTHORITY)
        certificate(cls.made.name, "office", ALGORITHMS["ES384"], "root", AUTHORITY)
        for name, key in ALGORITHMS.items():
            certificate(cls.made.name, name, key, "office")
            with open(os.path.join(cls.made.name, f"{name}.chain"), "wb") as chain:
                chain.write(b"".join(cls.contents(cls.made.name, f"{part}.pem") for part in (name, "office")))
        cls.addClassCleanup(cls.made.cleanup)

    def setUp(self):
        self.folder = tempfile.mkdtemp()
        self.addCleanup(shutil.rmtree, self.folder)
        shutil.copytree(self.made.name, self.folder, dirs_exist_ok=True)
        self.write("photo.jpg", PICTURE)
        self.write("film.mp4", FILM)
        self.write("place.json", b'{"place":"a street"}')

    @staticmethod
    def contents(folder, name):
        with open(os.path.join(folder, name), "rb") as file:
            return file.read()

    def write(self, name, contents):
        with open(os.path.join(self.folder, name), "wb") as file:
            file.write(contents)

    def run_in(self, *words):
        return subprocess.run(words, cwd=self.folder, capture_output=True, text=True)

    def sign(self, media, out, *options, signer="ES256", anchors=("--anchors", "root.pem")):
        program = os.path.join(TOP, "examples", "sign", "sign.py")
        return self.run_in(
            sys.executable,
            program,
            "--c2",
            C2,
            "--key",
            f"{signer}.key",
            "--chain",
            f"{signer}.chain",
            *anchors,
            *options,
            media,
            out,
        )

    def signed(self, *words, **how):
        """The last line of a signing that is done."""
        done = self.sign(*words, **how)
        self.assertEqual((done.returncode, done.stderr), (0, ""), done.stdout)
        return done.stdout.splitlines()[-1]

    def refused(self, wanted, media, out, *options, **how):
        """Asserts that a signing ends with these words and makes no file."""
        done = self.sign(media, out, *options, **how)
        self.assertNotEqual(done.returncode, 0)
        self.assertIn(wanted, done.stdout + done.stderr)
        self.assertFalse(os.path.exists(os.path.join(self.folder, out)))

    def shown(self, media):
        return json.loads(self.run_in(C2, "show", media).stdout)

    def test_each_algorithm(self):
        for name in ALGORITHMS:
            line = self.signed("photo.jpg", f"{name}.jpg", "--title", "It's a tree", "--room", "100", signer=name)
            self.assertEqual(line, f"valid manifests=1 assertions=2 covered={len(PICTURE)} outside=0")
            made, verdicts = self.contents(self.folder, f"{name}.jpg"), f"{name}.jpg.steps/new-verdicts"
            self.write("changed.jpg", made.replace(b"a tree\xff", b"a free\xff"))
            self.assertIn("failing assertion.dataHash.mismatch", self.run_in(C2, "validate", "changed.jpg", verdicts).stdout)
            self.assertEqual(made.count(b"It's a tree"), 1)
            message = len(self.contents(self.folder, f"{name}.jpg.steps/message"))
            with open(os.path.join(self.folder, f"{name}.jpg.steps/definition.json"), encoding="utf-8") as file:
                self.assertEqual(json.load(file)["reserve"], message + 100)

    def test_a_film_signed_again_and_redacted(self):
        self.assertEqual(
            self.signed("film.mp4", "1.mp4", "--assertion", "org.example.place=place.json"),
            "valid manifests=1 assertions=3 covered=14 outside=16",
        )
        self.assertEqual(
            self.signed("1.mp4", "2.mp4", "--action", "c2pa.cropped", signer="EdDSA"),
            "valid manifests=2 assertions=6 covered=14 outside=16",
        )
        uri = f"self#jumbf=/c2pa/{self.shown('1.mp4')['active']}/c2pa.assertions/org.example.place"
        self.assertEqual(self.signed("2.mp4", "3.mp4", "--redact", uri), "valid manifests=3 assertions=8 covered=14 outside=16")
        self.assertIn(b'"a street"', self.contents(self.folder, "2.mp4"))
        self.assertNotIn(b'"a street"', self.contents(self.folder, "3.mp4"))
        self.assertEqual(self.shown("3.mp4")["manifests"][-1]["claim"]["redacted"], [uri])

    def test_a_film_with_its_store_in_front(self):
        self.write("indexed.mp4", INDEXED)
        line = self.signed("indexed.mp4", "1.mp4", "--front", "--assertion", "org.example.place=place.json", "--alg", "sha512")
        self.assertEqual(line, f"valid manifests=1 assertions=3 covered={len(INDEXED) - 16} outside=16")
        made, start = self.contents(self.folder, "1.mp4"), 16
        length = int.from_bytes(made[start : start + 4], "big")
        place = int.from_bytes(made[start + length + len(TABLE) - 4 :][:4], "big")
        self.assertEqual((place, made[place:]), (INDEXED.index(b"a tree") + length, b"a tree"))
        self.assertEqual(made[start + length :].replace(place.to_bytes(4, "big"), b"\0\0\0\x54"), INDEXED[16:])
        self.assertEqual(self.signed("1.mp4", "2.mp4")[:18], "valid manifests=2 ")

    def test_a_picture_made_of_two(self):
        self.signed("photo.jpg", "1.jpg", "--assertion", "org.example.place=place.json")
        self.write("other.jpg", PICTURE.replace(b"a tree", b"a lake"))
        self.signed("other.jpg", "2.jpg", signer="EdDSA")
        line = self.signed("1.jpg", "3.jpg", "--collect", "2.jpg", signer="ES384")
        self.assertEqual(line, f"valid manifests=3 assertions=9 covered={len(PICTURE)} outside=0")
        self.assertEqual(self.actions("3.jpg"), [("c2pa.opened", PARENT), ("c2pa.placed", COMPONENT)])
        labels = [self.shown(name)["active"] for name in ("1.jpg", "2.jpg", "3.jpg")]
        self.assertEqual([manifest["label"] for manifest in self.shown("3.jpg")["manifests"]], labels)
        uri = f"self#jumbf=/c2pa/{labels[0]}/c2pa.assertions/org.example.place"
        line = self.signed("film.mp4", "4.mp4", "--collect", "3.jpg", "--redact", uri, "--alg", "sha512")
        self.assertEqual(line, "valid manifests=4 assertions=11 covered=14 outside=16")
        self.assertEqual(self.actions("4.mp4"), [("c2pa.created", None), ("c2pa.placed", PARENT)])
        self.assertNotIn(b'"a street"', self.contents(self.folder, "4.mp4"))

    def actions(self, media):
        """The actions of a file's active manifest, each with the URL of the ingredient that it refers to."""
        with open(os.path.join(self.folder, f"{media}.steps", "definition.json"), encoding="utf-8") as file:
            actions = cbor.read_whole(bytes.fromhex(json.load(file)["assertions"][0]["hex"]))
        entries = {entry["url"]: entry["hash"] for entry in self.shown(media)["manifests"][-1]["claim"]["assertions"]}
        found = []
        for action in cbor.field(actions, "actions")[1]:
            parameters, url = cbor.field(action, "parameters"), None
            if parameters is not None:
                (reference,) = cbor.field(parameters, "ingredients")[1]
                url = cbor.field(reference, "url")[1]
                self.assertEqual(cbor.field(reference, "hash")[1].hex(), entries[url])
            found.append((cbor.field(action, "action")[1], url))
        return found

    def test_the_action_refers_to_the_parent(self):
        self.signed("photo.jpg", "1.jpg")
        self.assert_refers("1.jpg", 32)

    def test_digests_by_another_algorithm(self):
        self.signed("photo.jpg", "1.jpg", "--alg", "sha384")
        self.assertEqual(self.shown("1.jpg")["manifests"][-1]["claim"]["alg"], "sha384")
        self.assert_refers("1.jpg", 64, "--alg", "sha512")
        algs = [manifest["claim"]["alg"] for manifest in self.shown("2.jpg")["manifests"]]
        self.assertEqual(algs, ["sha384", "sha512"])
        self.refused("build BadDefinition alg", "photo.jpg", "no.jpg", "--alg", "md5")

    def assert_refers(self, media, length, *options):
        """Asserts that the first action over a signed media refers to the parent's assertion, by a digest of so many bytes."""
        self.signed(media, "2.jpg", "--action", "c2pa.edited", *options)
        claim = self.shown("2.jpg")["manifests"][-1]["claim"]
        hashed = next(entry["hash"] for entry in claim["assertions"] if entry["url"] == PARENT)
        self.assertEqual(len(bytes.fromhex(hashed)), length)
        with open(os.path.join(self.folder, "2.jpg.steps", "definition.json"), encoding="utf-8") as file:
            actions = cbor.read_whole(bytes.fromhex(json.load(file)["assertions"][0]["hex"]))
        opened, edited = cbor.field(actions, "actions")[1]
        reference = cbor.field(cbor.field(opened, "parameters"), "ingredients")[1][0]
        self.assertEqual([cbor.field(action, "action")[1] for action in (opened, edited)], ["c2pa.opened", "c2pa.edited"])
        self.assertEqual((cbor.field(reference, "url")[1], cbor.field(reference, "hash")[1].hex()), (PARENT, hashed))

    def test_the_printed_steps_can_be_typed(self):
        commands = self.typed_again("photo.jpg", "a signed one.jpg", "--title", "A 'quoted' title; $HOME", covered=len(PICTURE), outside=0)
        self.assertEqual(commands, ["list", "plan", "embed", "validate"])
        commands = self.typed_again("film.mp4", "a signed one.mp4", "--front", covered=14, outside=16)
        self.assertEqual(commands, ["plan-front", "embed-front", "validate"])
        self.signed("film.mp4", "a signed film.mp4")
        options = "--collect", "a signed film.mp4"
        commands = self.typed_again("photo.jpg", "made of two.jpg", *options, manifests=2, assertions=5, covered=len(PICTURE), outside=0)
        self.assertEqual(commands, ["list", "plan-collect", "plan-collect", "embed-collect", "validate"])

    def typed_again(self, media, out, *options, manifests=1, assertions=2, covered, outside):
        """The commands of c2 among the printed steps, which come to the same when they are typed again."""
        printed = self.sign(media, out, *options).stdout
        typed = [line[2:] for line in printed.splitlines() if line.startswith("+ ")]
        first = self.contents(self.folder, out)
        os.remove(os.path.join(self.folder, out))
        done = self.run_in("sh", "-c", "\n".join(typed))
        self.assertEqual(done.stdout.splitlines()[-1], f"valid manifests={manifests} assertions={assertions} covered={covered} outside={outside}")
        self.assertEqual(len(self.contents(self.folder, out)), len(first))
        return [shlex.split(line)[1] for line in typed if shlex.split(line)[0] == C2]

    def test_what_is_refused(self):
        self.refused("the key isn't that of the signer's certificate", "photo.jpg", "no.jpg", "--key", "ES384.key")
        self.refused("has no certificate in PEM", "photo.jpg", "no.jpg", "--chain", "ES256.key")
        self.refused("LABEL=FILE is wanted", "photo.jpg", "no.jpg", "--assertion", "org.example.place")
        self.refused("there is no file absent.jpg", "absent.jpg", "no.jpg")
        self.refused("build BadDefinition label", "photo.jpg", "no.jpg", "--label", "a")
        self.refused("build NotBmff", "photo.jpg", "no.jpg", "--front")
        self.refused("there are no verdicts on it", "film.mp4", "no.mp4", "--front", "--verdicts", "place.json")
        self.write("fragments.mp4", FILM + bytes.fromhex("00000008 6d667261"))
        self.refused(f"build OffsetTable {len(FILM)}", "fragments.mp4", "no.mp4", "--front")
        self.signed("photo.jpg", "1.jpg")
        self.refused("--anchors or --verdicts is wanted", "1.jpg", "no.jpg", anchors=())
        self.refused("build RedactionRefused x profile.redaction.uri", "1.jpg", "no.jpg", "--redact", "x")
        self.write("changed.jpg", self.contents(self.folder, "1.jpg").replace(b"a tree\xff", b"a free\xff"))
        self.refused("build ParentFails assertion.dataHash.mismatch", "changed.jpg", "no.jpg")
        self.signed("film.mp4", "1.mp4")
        self.refused("build HasStore", "1.mp4", "no.mp4", "--front")
        self.refused("can't be done at once", "film.mp4", "no.mp4", "--front", "--collect", "1.jpg")
        self.refused("there is no file absent.jpg", "photo.jpg", "no.jpg", "--collect", "absent.jpg")
        self.refused("build OtherRefused none", "1.jpg", "no.jpg", "--collect", "photo.jpg")
        self.refused("build OtherRefused failing assertion.dataHash.mismatch", "photo.jpg", "no.jpg", "--collect", "changed.jpg")
        self.refused("--anchors or --verdicts is wanted", "photo.jpg", "no.jpg", "--collect", "1.jpg", anchors=())
        before = self.contents(self.folder, "1.jpg")
        self.assertIn("is there already", self.sign("photo.jpg", "1.jpg").stderr)
        self.assertEqual(self.contents(self.folder, "1.jpg"), before)


if __name__ == "__main__":
    unittest.main(argv=sys.argv[:1])
