"""Two programs on random claims: differ.py PROGRAM OLD_PROGRAM COUNT [SEED]. They must say the same of each: the claim, with each of
its redactions, or the same refusal at the same place. Redactions are texts of up to 40 bytes in any spelling, lists with
something else among them, and anything but a list; a key may come twice, and inputs have cuts, more bytes and reserved ones."""
import collections
import random
import subprocess
import sys
import tempfile

KEYS = b"instanceID", b"signature", b"created_assertions", b"gathered_assertions", b"redacted_assertions", b"alg"
REDACTED = b"redacted_assertions"


def head(major, number, wide=False):
    if number < 24 and not wide:
        return bytes([major << 5 | number])
    if number < 256:
        return bytes([major << 5 | 24, number])
    return bytes([major << 5 | 25]) + number.to_bytes(2, "big")


def text(dice, contents):
    """A text in any spelling."""
    if dice.random() < 0.15:
        at = dice.randrange(len(contents) + 1)
        return b"\x7f" + head(3, at) + contents[:at] + head(3, len(contents) - at) + contents[at:] + b"\xff"
    return head(3, len(contents), dice.random() < 0.1) + contents


def any_text(dice):
    length = dice.choice((0, 0, 1, 2, 13, 14, 15, 16, 24, dice.randrange(41)))
    contents = bytes(97 + dice.randrange(26) for _ in range(length))
    if dice.random() < 0.1:
        contents = contents[:-2] + "é".encode()
    return text(dice, contents if dice.random() < 0.97 else contents + b"\xc3")


def other(dice):
    """What is no text, or no item."""
    return dice.choice((b"\x00", b"\xf6", b"\x41a", b"\x80", b"\xa0", b"\xc0\x60", b"\x81\x60", b"\xf5", b"\xff", b"\x1c", b"\xa2\x00\x00\x00\x00"))


def members(dice, each, count):
    listed = b"".join(each() for _ in range(count))
    return b"\x9f" + listed + b"\xff" if dice.random() < 0.25 else head(4, count, dice.random() < 0.1) + listed


def redactions(dice):
    kind = dice.random()
    if kind < 0.6:
        return members(dice, lambda: any_text(dice), dice.randrange(6))
    if kind < 0.8:
        return members(dice, lambda: any_text(dice) if dice.random() < 0.7 else other(dice), dice.randrange(1, 6))
    return any_text(dice) if kind < 0.85 else other(dice)


def reference(dice):
    return b"\xa2" + text(dice, b"url") + any_text(dice) + text(dice, b"hash") + b"\x42ab"


def value(dice, key):
    if dice.random() < 0.06:
        return other(dice)
    if key == REDACTED:
        return redactions(dice)
    if key.endswith(b"assertions"):
        return members(dice, lambda: reference(dice), dice.randrange(3))
    return any_text(dice)


def claim(dice):
    keys = [key for key in KEYS if dice.random() < 0.97]
    if dice.random() < 0.2:
        keys.append(dice.choice((REDACTED, dice.choice(KEYS), b"x", b"")))
    dice.shuffle(keys)
    pairs = b"".join(text(dice, key) + value(dice, key) for key in keys)
    if dice.random() < 0.05:
        return dice.choice((other(dice), head(4, 2 * len(keys)) + pairs, b"\xc0" + head(5, len(keys)) + pairs))
    data = b"\xbf" + pairs + b"\xff" if dice.random() < 0.2 else head(5, len(keys), dice.random() < 0.1) + pairs
    if dice.random() < 0.1:
        data = data[: dice.randrange(len(data))]
    return data + b"\x60" if dice.random() < 0.03 else data


def said(program, path):
    return subprocess.run([program, "told", path], capture_output=True, check=True).stdout


def main():
    programs, count = sys.argv[1:3], int(sys.argv[3])
    dice = random.Random(int(sys.argv[4]) if len(sys.argv) > 4 else 1)
    kinds = collections.Counter()
    with tempfile.NamedTemporaryFile() as file:
        for _ in range(count):
            data = claim(dice)
            with open(file.name, "wb") as out:
                out.write(data)
            answers = [said(program, file.name) for program in programs]
            if answers[0] != answers[1]:
                sys.exit(f"{data.hex()}: {answers}")
            kinds[answers[0].split(b"\n")[0].split(b"(")[0].decode()] += 1
    print(f"{count} inputs, the same answers: {dict(kinds)}")


if __name__ == "__main__":
    main()
