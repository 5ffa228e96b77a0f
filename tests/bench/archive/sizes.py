#!/usr/bin/env python3
"""Processor time and peak memory of `c2 validate` on photographs of rising size: sizes.py C2 FILE.. (each with its verdict file).

Beside it `c2 digest`, which hashes all but the store's range, `sha256sum` and `openssl dgst -sha256` of the same files, by turns,
the least of five; on a file above 1 GB `validate` alone, once.
"""
import os
import subprocess
import sys
import tempfile

TURNS = 5


def run(words):
    """Processor time, peak memory in MB, and what a program prints."""
    with tempfile.NamedTemporaryFile() as told:
        done = subprocess.run(["/usr/bin/time", "-f", "%U %S %M", "-o", told.name, *words], stdout=subprocess.PIPE, check=False)
        user, system, memory = told.read().decode().split("\n")[-2].split()
    return float(user) + float(system), int(memory) * 1024 / 1e6, done.stdout.decode().strip()


def main():
    program, files = os.path.abspath(sys.argv[1]), sys.argv[2:]
    wrong = 0
    print(f"{'MB':>8} {'validate s':>10} {'MB':>6} {'digest s':>10} {'sha256sum s':>11} {'openssl s':>9}")
    for file in files:
        size = os.path.getsize(file) / 1e6
        commands = [[program, "validate", file, f"{file}.verdicts"]]
        if size < 1_000:
            commands += [[program, "digest", file], ["sha256sum", file], ["openssl", "dgst", "-sha256", file]]
        runs = [[run(words) for words in commands] for _ in range(TURNS if size < 1_000 else 1)]
        seconds = [min(turn[number][0] for turn in runs) for number in range(len(commands))]
        memory, answer = max(turn[0][1] for turn in runs), runs[0][0][2]
        is_valid = answer.startswith("valid manifests=1 assertions=3 ")
        wrong += not is_valid
        others = "".join(f" {it:{width}.2f}" for it, width in zip(seconds[1:], (10, 11, 9)))
        print(f"{size:8.1f} {seconds[0]:10.2f} {memory:6.1f}{others}{'' if is_valid else '  ' + answer}", flush=True)
    sys.exit(wrong > 0)


if __name__ == "__main__":
    main()
