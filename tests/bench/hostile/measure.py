#!/usr/bin/env python3
"""Runs each command of c2 that takes a file alone on each file in a folder: measure.py PROGRAM FOLDER [TURNS [SECONDS MB]].

A verdict file beside a FILE (FILE.verdicts) is handed to `questions` and `validate`, and what `validate` says is compared with
FILE.answer. A command that the program doesn't have is left out. Prints the status, the least processor time and the peak
memory, and ends with status 1 where one is above the limits (4 s and 700 MB, where none are given) or an answer is another.
"""
import os
import sys
import tempfile

COMMANDS = "digest", "list", "show", "questions", "validate"
JUDGED = "questions", "validate"
USAGE = 4


def run(words, told=os.devnull):
    child = os.posix_spawn(words[0], words, os.environ, file_actions=[
        (os.POSIX_SPAWN_OPEN, 1, told, os.O_WRONLY | os.O_TRUNC, 0), (os.POSIX_SPAWN_OPEN, 2, os.devnull, os.O_WRONLY, 0)])
    _, status, usage = os.wait4(child, 0)
    return usage.ru_utime + usage.ru_stime, usage.ru_maxrss * 1024 / 1e6, os.waitstatus_to_exitcode(status)


def has(program, command):
    return run([program, command, "no file"])[2] != USAGE


def right_answer(path, told):
    """Whether a file has what the file with the answer has, where there is one."""
    if not os.path.exists(f"{path}.answer"):
        return True
    with open(f"{path}.answer", "rb") as expected, open(told, "rb") as answer:
        return answer.read() == expected.read()


def main():
    program, folder = os.path.abspath(sys.argv[1]), sys.argv[2]
    turns = int(sys.argv[3]) if len(sys.argv) > 3 else 2
    most_seconds, most_memory = map(float, sys.argv[4:6] if len(sys.argv) > 5 else (4, 700))
    all_right = True
    commands = [command for command in COMMANDS if has(program, command)]
    print(f"{'file':26} {'MB':>5} {'command':10} {'status':>6} {'s':>6} {'MB':>6}")
    with tempfile.NamedTemporaryFile() as told:
        for name in sorted(name for name in os.listdir(folder) if not name.endswith((".verdicts", ".answer"))):
            path = os.path.join(folder, name)
            judges = [f"{path}.verdicts"] if os.path.exists(f"{path}.verdicts") else []
            for command in commands:
                words = [program, command, path, *(judges if command in JUDGED else [])]
                runs = [run(words, told.name if command == "validate" else os.devnull) for _ in range(turns)]
                seconds, memory, status = min(s for s, _, _ in runs), max(m for _, m, _ in runs), runs[0][2]
                wrong = "" if seconds <= most_seconds and memory <= most_memory else "  above"
                if command == "validate" and not right_answer(path, told.name):
                    wrong += "  another answer"
                all_right = all_right and not wrong
                size, shown = os.path.getsize(path) / 1e6, name.rsplit(".", 1)[0]
                print(f"{shown:26} {size:5.1f} {command:10} {status:6} {seconds:6.2f} {memory:6.0f}{wrong}", flush=True)
    sys.exit(0 if all_right else 1)


if __name__ == "__main__":
    main()
