#!/usr/bin/env python3
"""Runs the lines of README.md that call the program, in their order, in a folder of its own that it removes, and compares what each
prints with what stands behind it there (`..` stands for anything, ` / ` between lines). The lines that mount and unmount are run as root alone, at a
folder of its own in place of /mnt. README is to have at most 2,000 words.

    examples/try-readme.py

Needs xfsprogs and ./xfs. Prints each line that was run; ends with 1 where one prints something else or fails."""
import os
import re
import subprocess
import sys
import tempfile

TOP = os.path.abspath(os.path.join(os.path.dirname(os.path.abspath(__file__)), ".."))
MOST_WORDS = 2000
# of these the status is not 0
REFUSED = ("damaged:", "xfs:")


def commands(text):
    """The lines of the page that can be run: from the first that makes a file on, without the usage lines of the tools."""
    body = text[text.index("    truncate "):]
    for line in re.findall(r"(?m)^    (\S.*)$", body):
        command, _, printed = line.partition("    # ") if "    # " in line else line.partition(" # ")
        if not command.startswith("xfs "):
            yield command.strip(), printed.strip()


def is_as_said(run, printed):
    """Whether a call printed what the page says, and ended as that does."""
    said = (run.stdout + run.stderr).strip().replace("\n", " / ")
    if not printed:
        return run.returncode == 0
    pattern = ".*".join(re.escape(part) for part in printed.split(".."))
    return bool(re.fullmatch(pattern, said)) and (run.returncode != 0) == printed.startswith(REFUSED)


def main():
    with open(os.path.join(TOP, "README.md"), encoding="utf-8") as file:
        text = file.read()
    right = len(text.split()) <= MOST_WORDS
    print(f"{len(text.split())} words")
    with tempfile.TemporaryDirectory() as work:
        os.mkdir(os.path.join(work, "mnt"))
        os.symlink(os.path.join(TOP, "xfs"), os.path.join(work, "xfs"))
        os.symlink(os.path.join(TOP, "README.md"), os.path.join(work, "README.md"))
        for command, printed in commands(text):
            if "/mnt" in command and os.geteuid() != 0:
                continue
            run = subprocess.run(command.replace("/mnt", "mnt"), shell=True, cwd=work, capture_output=True, text=True, check=False)
            good = is_as_said(run, printed)
            print(f"{'as said' if good else 'OTHERWISE'}: {command}" + ("" if good else f": {run.stdout}{run.stderr}"))
            right &= good
    return 0 if right else 1


sys.exit(main())
