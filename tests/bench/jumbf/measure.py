"""Runs a program on each input in a folder, to read it, to ask each of its boxes and to copy it alone: measure.py PROGRAM
FOLDER [TURNS]. Prints the least time of each, the ratio of reading to copying, the peak memory of each, and how many bytes
of memory a tree takes for one byte of input, the input itself left out."""
import os
import sys
import time


def run(words):
    start = time.perf_counter()
    child = os.spawnv(os.P_NOWAIT, words[0], words)
    _, status, usage = os.wait4(child, 0)
    return time.perf_counter() - start, os.waitstatus_to_exitcode(status), usage.ru_maxrss * 1024


program, folder = sys.argv[1:3]
turns = int(sys.argv[3]) if len(sys.argv) > 3 else 3
print(f"{'input':20} {'MB':>5} {'read s':>7} {'list s':>7} {'copy s':>7} {'ratio':>6} {'read MB':>8} {'copy MB':>8} {'B/B':>6}")
for name in sorted(os.listdir(folder)):
    path = f"{folder}/{name}"
    size = os.path.getsize(path)
    runs = {mode: [run([program, mode, path]) for _ in range(turns)] for mode in ("parse", "list", "copy")}
    if any(code != 0 for rows in runs.values() for _, code, _ in rows):
        sys.exit(f"{name}: {runs}")
    read, listed, copy = (min(t for t, _, _ in runs[mode]) for mode in ("parse", "list", "copy"))
    peak, base = max(m for _, _, m in runs["parse"]), max(m for _, _, m in runs["copy"])
    # the copying program holds the input once more than the reading one
    tree = (peak - base + size) / size
    print(f"{name[:-6]:20} {size / 1e6:5.1f} {read:7.3f} {listed:7.3f} {copy:7.3f} {read / copy:6.1f} {peak / 1e6:8.1f} {base / 1e6:8.1f} {tree:6.1f}")
