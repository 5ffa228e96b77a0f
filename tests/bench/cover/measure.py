"""Hashes each file of a folder by the program's modes, `sha256sum`, `openssl` and, where one is named, a built c2 with `digest` and
`validate`, by turns, and by SHA-384 and SHA-512 too: measure.py PROGRAM FOLDER [TURNS [C2]]. Prints the least processor time of each,
its ratio to that of `bare` by the same algorithm, and the peak memory."""
import os
import subprocess
import sys
import tempfile


# GNU time starts the program from a small process of its own, so that the memory is the program's
def run(words):
    with tempfile.NamedTemporaryFile() as told:
        subprocess.run(["/usr/bin/time", "-f", "%U %S %M", "-o", told.name] + words, stdout=subprocess.DEVNULL, check=True)
        user, system, memory = told.read().split()
    return float(user) + float(system), int(memory) * 1024


program, folder = sys.argv[1:3]
turns = int(sys.argv[3]) if len(sys.argv) > 3 else 5
for name in sorted(name for name in os.listdir(folder) if not name.endswith(".verdicts")):
    path = f"{folder}/{name}"
    words = {mode: [program, mode, path] for mode in ("bare", "whole", "around", "many")}
    words["sha256sum"] = ["sha256sum", path]
    words["openssl"] = ["openssl", "dgst", "-sha256", path]
    if len(sys.argv) > 4:
        words["c2 digest"] = [sys.argv[4], "digest", path]
        words["c2 validate"] = [sys.argv[4], "validate", path, f"{path}.verdicts"]
    of_bare = dict.fromkeys(words, "bare")
    for alg in "sha384", "sha512":
        longer = {f"{mode} {alg}": [program, mode, path, alg] for mode in ("bare", "around")}
        longer |= {f"{alg}sum": [f"{alg}sum", path], f"openssl {alg}": ["openssl", "dgst", f"-{alg}", path]}
        if len(sys.argv) > 4:
            longer[f"c2 digest {alg}"] = [sys.argv[4], "digest", path, alg]
        of_bare |= dict.fromkeys(longer, f"bare {alg}")
        words |= longer
    rows = {mode: [] for mode in words}
    for _ in range(turns):
        for mode, command in words.items():
            rows[mode].append(run(command))
    least = {mode: min(t for t, _ in each) for mode, each in rows.items()}
    print(f"{name}: {os.path.getsize(path) / 1e6:.0f} MB")
    for mode, each in rows.items():
        print(f"{mode:16} {least[mode]:6.2f} s {least[mode] / least[of_bare[mode]]:5.2f} {max(m for _, m in each) / 1e6:6.1f} MB")
