"""Runs a program on each input in a folder, to copy it, to read its item or tree, and to read it whole: measure.py PROGRAM
FOLDER [TURNS]. Prints the least processor time of each, the peak memory of the last two less the input, and how many bytes of
memory the whole reading takes for one byte of input, the input itself left out."""
import os
import sys


def run(words):
    child = os.spawnv(os.P_NOWAIT, words[0], words)
    _, status, usage = os.wait4(child, 0)
    if os.waitstatus_to_exitcode(status) != 0:
        sys.exit(f"{words}: status {status}")
    return usage.ru_utime + usage.ru_stime, usage.ru_maxrss * 1024


program, folder = sys.argv[1:3]
turns = int(sys.argv[3]) if len(sys.argv) > 3 else 3
print(f"{'input':28} {'MB':>5} {'copy s':>7} {'part s':>7} {'whole s':>7} {'part MB':>8} {'whole MB':>8} {'B/B':>6}")
for name in sorted(os.listdir(folder)):
    path, kind = f"{folder}/{name}", name.split(".")[-1]
    size = os.path.getsize(path)
    modes = ("copy", "item", "claim") if kind == "claim" else ("copy", "tree", "store")
    runs = [[run([program, mode, path]) for _ in range(turns)] for mode in modes]
    copy, part, whole = (min(t for t, _ in rows) for rows in runs)
    # the copying program holds the input twice
    base = max(m for _, m in runs[0]) - size
    part_peak, whole_peak = (max(m for _, m in rows) - base for rows in runs[1:])
    print(f"{name.rsplit('.', 1)[0]:28} {size / 1e6:5.1f} {copy:7.3f} {part:7.3f} {whole:7.3f} {part_peak / 1e6:8.1f} {whole_peak / 1e6:8.1f} {whole_peak / size:6.1f}")
