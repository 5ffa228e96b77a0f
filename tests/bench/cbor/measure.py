"""Runs a program on each input in a folder, to copy it, to read it, and to read and write it: measure.py PROGRAM FOLDER
[OLD_PROGRAM [TURNS]]. Prints the least processor time of reading (less that of copying) and of writing (less that of reading),
in milliseconds, the peak memory of both, and how many bytes of memory reading takes for a byte of input. With an old program,
which runs by turns with the other, each figure stands beside its ratio to the old one's, and both must say the same."""
import os
import sys
import tempfile

MODES = "copy", "decode", "encode"


def run(program, mode, path):
    """What the program said, its processor time in milliseconds, and its peak memory in MB."""
    with tempfile.TemporaryFile() as out:
        child = os.posix_spawn(program, [program, mode, path], os.environ, file_actions=[(os.POSIX_SPAWN_DUP2, out.fileno(), 1)])
        _, status, usage = os.wait4(child, 0)
        out.seek(0)
        lines = out.read().decode().splitlines()
    if os.waitstatus_to_exitcode(status) != 0:
        sys.exit(f"{program} {mode} {path}: status {status}")
    return lines[0] if lines else "", (usage.ru_utime + usage.ru_stime) * 1000, usage.ru_maxrss * 1024 / 1e6


def measured(programs, path, turns):
    """For each program what it said, and its times and memory."""
    runs = {(program, mode): [] for program in programs for mode in MODES}
    for _ in range(turns):
        for program, mode in runs:
            runs[program, mode].append(run(program, mode, path))
    size = os.path.getsize(path) / 1e6
    for program in programs:
        copy, read, both = (min(time for _, time, _ in runs[program, mode]) for mode in MODES)
        copied, tree, written = (max(memory for *_, memory in runs[program, mode]) for mode in MODES)
        # the copying program holds the input once more than the reading one
        yield runs[program, "encode"][0][0], max(read - copy, 1), max(both - read, 1), tree, written, (tree - copied + size) / size


def main():
    folder, programs = sys.argv[2], [os.path.abspath(program) for program in (sys.argv[1], *sys.argv[3:4])]
    turns = int(sys.argv[4]) if len(sys.argv) > 4 else 3
    print(f"{'input':26} {'MB':>5} {'read ms':>8} {'write ms':>8} {'read MB':>8} {'write MB':>8} {'B/B':>5}", "  ratios to the old program" if len(programs) > 1 else "")
    for name in sorted(os.listdir(folder)):
        path = os.path.join(folder, name)
        (said, *new), *others = measured(programs, path, turns)
        more = ""
        for old_said, *old in others:
            if said != old_said:
                sys.exit(f"{name}: {said} and {old_said}")
            more = " ".join(f"{a / b:6.2f}" for a, b in zip(new[:4], old))
        size = os.path.getsize(path) / 1e6
        print(f"{name[:-5]:26} {size:5.1f} {new[0]:8.0f} {new[1]:8.0f} {new[2]:8.0f} {new[3]:8.0f} {new[4]:5.1f}  {more}", flush=True)


if __name__ == "__main__":
    main()
