"""What `compare` costs: measure.py PROGRAM FOLDER [C2 [TURNS]]. C2 is a built c2, that of the checkout where none is named.

First the two small files under the sum: their report must be the one that generate.py made, two lines of 2,008,008 digits in it. Then,
by turns, the least processor time of `compare` on two files, and that of hashing them and of reading them; and the peak memory.
"""
import os
import subprocess
import sys
import tempfile

here = os.path.dirname(os.path.abspath(__file__))


# GNU time starts the program from a small process of its own, so that the memory is the program's
def run(words):
    with tempfile.NamedTemporaryFile() as told:
        done = subprocess.run(["/usr/bin/time", "-f", "%U %S %M", "-o", told.name] + words, stdout=subprocess.PIPE, check=False)
        user, system, memory = told.read().split(b"\n")[-2].split()
    return float(user) + float(system), int(memory) * 1024 / 1e6, done.stdout, done.returncode


program, folder = sys.argv[1:3]
c2 = sys.argv[3] if len(sys.argv) > 3 else os.path.join(here, "..", "..", "..", "build", "c2")
turns = int(sys.argv[4]) if len(sys.argv) > 4 else 5
path = lambda name: os.path.join(folder, name)

seconds, memory, printed, status = run([program, "weak", path("small-first"), path("small-second")])
with open(path("small-report"), "rb") as file:
    expected = file.read()
lengths = [len(line) for line in printed.split(b"\n")]
print(f"two files of 1 MB under the sum: status {status}, lines of {lengths[:3]} characters, {seconds:.2f} s, {memory:.1f} MB")
wrong = printed != expected or status != 10

words = {
    "compare": [c2, "compare", path("first"), path("second"), path("verdicts")],
    "bare": [program, "bare", path("first")],
    "read": [program, "read", path("first")],
}
rows = {mode: [] for mode in words}
for _ in range(turns):
    for mode, command in words.items():
        rows[mode].append(run(command))
least = {mode: min(row[0] for row in each) for mode, each in rows.items()}
print(f"two files of {os.path.getsize(path('first')) / 1e6:.0f} MB: {rows['compare'][0][2].decode().strip()}")
for mode, each in rows.items():
    print(f"{mode:8} {least[mode]:6.2f} s {max(row[1] for row in each):6.1f} MB")
both = 2 * least["bare"] + 2 * least["read"]
print(f"compare is {least['compare'] / both:.2f} of both files hashed and read once more")
wrong |= rows["compare"][0][3] != 0
sys.exit(wrong)
