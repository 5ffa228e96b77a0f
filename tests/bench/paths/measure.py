"""Runs the program on both films in each mode: measure.py PROGRAM FOLDER. Prints processor seconds, peak memory, and what it says."""
import subprocess
import sys
import tempfile

program, folder = sys.argv[1:3]
for name, path in (("roots", "/free"), ("children", "/moov/trak")):
    for mode in ("roots", "same", "nth", "entered", "tests", "parts", "apart"):
        with tempfile.NamedTemporaryFile() as told:
            run = subprocess.run(["/usr/bin/time", "-f", "%U %S %M", "-o", told.name, program, mode, path, f"{folder}/{name}"], capture_output=True, text=True)
            user, system, memory = told.read().split()[-3:]
        print(f"{name:9} {mode:8} {float(user) + float(system):7.2f} s {int(memory) * 1024 / 1e6:7.1f} MB  {run.stdout.strip() or run.returncode}", flush=True)
