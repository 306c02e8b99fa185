#!/usr/bin/env python3
"""The processor time that proving all crates of some commits takes, from nothing.

    python3 -B tests/check/times.py FOLDER [NAME=]COMMIT ...

FOLDER is a clone of this repository that may be checked out at will; times are kept there in .git/times.json. A commit whose crates have the same files as
those of one that was measured before is not proved again. Runs `rt ci --anew` without the must-fail edits, so the tests of crates and both builds of each
program are in the time. Prints a line for each commit: its name, the number of its crates, and the processor minutes of all.
"""
import hashlib
import json
import os
import resource
import shutil
import subprocess
import sys


def crates_of(folder):
    """The crates of crates.txt."""
    lines = (line.split("#")[0] for line in open(os.path.join(folder, "crates.txt"), encoding="utf-8"))
    return [line.split(":")[0].split()[0] for line in lines if line.strip()]


def digest(folder, crates):
    """A number for crates.txt and the files of the crates that proofs read."""
    h = hashlib.sha256(open(os.path.join(folder, "crates.txt"), "rb").read())
    for at in sorted(os.path.join(folder, "crates", name, part) for name in crates for part in ("src", "specs", "proofs")):
        for below, dirs, files in os.walk(at):
            dirs.sort()
            for f in sorted(files):
                path = os.path.join(below, f)
                h.update(os.path.relpath(path, folder).encode())
                h.update(open(path, "rb").read())
    return h.hexdigest()


def processor():
    u = resource.getrusage(resource.RUSAGE_CHILDREN)
    return u.ru_utime + u.ru_stime


def main():
    if len(sys.argv) < 3:
        sys.exit(__doc__)
    folder = sys.argv[1]
    kept = os.path.join(folder, ".git", "times.json")
    times = json.load(open(kept)) if os.path.exists(kept) else {}
    for word in sys.argv[2:]:
        name, _, commit = word.rpartition("=")
        subprocess.run(["git", "checkout", "-q", "--force", commit], cwd=folder, check=True)
        crates = crates_of(folder)
        key = digest(folder, crates)
        if key not in times:
            for crate in crates:
                shutil.rmtree(os.path.join(folder, "crates", crate, "must-fail"), ignore_errors=True)
            before = processor()
            done = subprocess.run(["rt", "ci", "--anew"], cwd=folder, stdout=subprocess.PIPE, stderr=subprocess.STDOUT, text=True)
            if done.returncode != 0:
                sys.exit(f"{word}: rt ci --anew failed\n{done.stdout[-2000:]}")
            times[key] = processor() - before
            json.dump(times, open(kept, "w"))
        print(f"{name or commit} {commit}: {len(crates)} crates, {times[key] / 60:.1f} processor minutes", flush=True)


main()
