"""Two programs on random inputs with equal keys: differ.py PROGRAM OLD_PROGRAM COUNT [SEED]. They must say the same of each:
the item's length once written, or the same fault at the same place. Inputs are nested maps with few keys in several
spellings, open lengths, cuts and reserved bytes."""
import collections
import random
import subprocess
import sys
import tempfile


def head(major, number, wide=False):
    if number < 24 and not wide:
        return bytes([major << 5 | number])
    if number < 256:
        return bytes([major << 5 | 24, number])
    return bytes([major << 5 | 25]) + number.to_bytes(2, "big")


def leaf(dice):
    kind = dice.randrange(6)
    if kind == 0:
        return head(0, dice.randrange(6), dice.random() < 0.2)
    if kind == 1:
        return head(1, dice.randrange(3))
    if kind == 2:
        contents = bytes(dice.randrange(2) for _ in range(dice.randrange(12)))
        return head(2, len(contents)) + contents
    if kind == 3:
        contents = b"aaaaaaaa"[: dice.randrange(9)] + bytes([97 + dice.randrange(3)])
        return head(3, len(contents)) + contents
    if kind == 4:
        return bytes([0xF4 + dice.randrange(4)])
    return b"\xff" if dice.random() < 0.05 else b"\x1c" if dice.random() < 0.05 else b"\x18\x01"


def item(dice, depth):
    kind = dice.random()
    if depth == 0 or kind < 0.45:
        return leaf(dice)
    if kind < 0.55:
        count = dice.randrange(4)
        return head(4, count) + b"".join(item(dice, depth - 1) for _ in range(count))
    if kind < 0.6:
        return head(6, 1) + item(dice, depth - 1)
    count = dice.randrange(7)
    body = b"".join(item(dice, depth - 1) + item(dice, max(depth - 2, 0)) for _ in range(count))
    return b"\xbf" + body + b"\xff" if dice.random() < 0.2 else head(5, count) + body


def said(program, path):
    return subprocess.run([program, "encode", path], capture_output=True, text=True, check=True).stdout.splitlines()[0]


def main():
    programs, count = sys.argv[1:3], int(sys.argv[3])
    dice = random.Random(int(sys.argv[4]) if len(sys.argv) > 4 else 1)
    kinds = collections.Counter()
    with tempfile.NamedTemporaryFile() as file:
        for _ in range(count):
            data = item(dice, 3)
            while not data or data[0] >> 5 not in (4, 5, 6):
                data = item(dice, 3)
            if dice.random() < 0.2 and len(data) > 2:
                data = data[: dice.randrange(1, len(data))]
            with open(file.name, "wb") as out:
                out.write(data)
            answers = [said(program, file.name) for program in programs]
            if answers[0] != answers[1]:
                sys.exit(f"{data.hex()}: {answers}")
            kinds[answers[0].split("(")[0].split()[0]] += 1
    print(f"{count} inputs, the same answers: {dict(kinds)}")


if __name__ == "__main__":
    main()
