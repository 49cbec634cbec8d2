#!/usr/bin/env python3
"""Compares the answers in the manual pages with the texts of the program: `text_of` of crates/xfs_tools/specs/Texts.antt, which
the code of crates/xfs_tools/src/texts.rt is proved to print, and which of them each tool gives. Each answer of a page must be one
that its tool gives, and each that it gives must stand in the page, but for those that no call gives today (LATER). The refusals
of the debugger's page must be those that its code prints. The options and statuses of the help of each tool (crates/xfs_texts/specs/Help.antt,
which the code is proved to print too) must be those of its page. Then both `mandoc` and `man` must show each page without a warning.

    examples/compare-manuals.py

Needs mandoc and man-db. Prints a line for each page; ends with 1 where something differs."""
import glob
import os
import re
import subprocess
import sys

TOP = os.path.join(os.path.dirname(os.path.abspath(__file__)), "..")
SPECS = "crates/xfs_tools/specs/"
# the tools, and the definitions that say which answers each of them gives
TOOLS = {"xfs_repair": [("Answers", "answer_of")], "mkfs.xfs": [("Making", "made_answer"), ("Making", "make_refusal"), ("Damaging", "damage_answer")],
         "xfs_db": [("Debugging", "session_answer"), ("Debugging", "line_refusal")]}
# what else a tool prints: the answers of a repair of the volume that it made, but for those that no such volume gives, and the lines of its steps
BESIDE = {"mkfs.xfs": (("repaired: blocks",), ("generated_text", "damaged_text"))}
# how the definitions of help name the tools
HELPED = {"xfs_repair": "repair", "mkfs.xfs": "make", "xfs_db": "debug"}
# the forms of answers that no call of a tool gives: a repair places directories, inodes and groups, and a new volume has no lost+found
LATER = {"xfs_repair": ("xfs: no room: file", "xfs: no room: chunk"),
         "mkfs.xfs": ("xfs: no room: lost",)}
# a number or an identifier in a text
HOLE = "#"
TOKEN = re.compile(r'codes\s+"((?:[^"\\]|\\.)*)"|\b(Decimal|Large|Hexadecimal|hyphenated_text)\b|\b([a-z_]+(?:_text|_numbers))\b')


def read(path):
    with open(os.path.join(TOP, path), encoding="utf-8") as file:
        return file.read()


def equations(text):
    """The equations of a page of definitions: name, patterns and value of each, in order."""
    text = re.sub(r"--[^\n]*", "", text)
    starts = list(re.finditer(r"(?m)^([a-z_]+) ([^\n=:]*)=(?![=>])", text))
    for at, start in enumerate(starts):
        end = starts[at + 1].start() if at + 1 < len(starts) else len(text)
        value = re.split(r"(?m)^(?:abbrev|unfoldable|pub|use)\b", text[start.end():end])[0]
        yield start.group(1), start.group(2), value


def texts():
    """The forms of the line of each answer, by the name of its variant."""
    named = {}
    answers = {}
    for name, pattern, value in equations(read(SPECS + "Texts.antt")):
        if name == "text_of":
            answers.setdefault(re.findall(r"[A-Z]\w*", pattern)[0], []).extend(forms(value, named))
        else:
            named.setdefault(name, []).extend(forms(value, named))
    return answers


def forms(value, named):
    """The lines that a value of a definition can be: its texts and holes in order, and each form of the definitions that it names."""
    lines = [""]
    for token in TOKEN.finditer(value):
        if token.group(3):
            lines = [line + form for line in lines for form in named.get(token.group(3), [""])]
        else:
            part = HOLE if token.group(2) else token.group(1).replace("\\n", "\n")
            lines = [line + part for line in lines]
    return lines


def variants(parts):
    """The variants of Answer that these definitions give."""
    given = set()
    for page, name in parts:
        for found, _, value in equations(read(SPECS + page + ".antt")):
            if found == name:
                given.add(re.findall(r"(?:answer = )?\b([A-Z]\w*)", value)[0])
    return given


def due(tool, answers):
    """The lines that a tool prints: those of its answers, and those of the program, with a hole for each value in them."""
    lines = {line for name in variants(TOOLS[tool]) | {"Usage"} for line in answers[name]
             if line and not line.startswith(LATER.get(tool, ("no line",)))}
    begins, steps = BESIDE.get(tool, ((), ()))
    lines |= {line for line in answers["Repaired"] if line.startswith(begins)} if begins else set()
    lines |= {form for name, _, value in equations(read(SPECS + "Generating.antt")) if name in steps for form in forms(value, {})}
    program = read("crates/xfs_system/src/image.rt") + read("crates/xfs_program/src/performing.rt")
    printed = re.findall(r'eprintln!\(host; "([^"]*)"[,)]', program)
    return lines | {re.sub(r"\{\w*\}", HOLE, line) + "\n" for line in printed}


def item(words):
    """The text that an item of a list shows, with a hole for each argument."""
    shown, joined, kind = "", True, None
    for quoted, plain in re.findall(r'"([^"]*)"|(\S+)', words):
        if plain in ("Li", "Ar", "Ns"):
            kind, joined = (kind, True) if plain == "Ns" else (plain, joined)
            continue
        part = HOLE if kind == "Ar" else (quoted or plain).replace("\\&", "")
        shown += part if joined else " " + part
        joined = False
    return shown


def listed(page, section):
    """The items of the lists of a section of a page that stand there as printed."""
    body = re.split(r"(?m)^\.Sh ", page.split(f"\n.Sh {section}\n")[1])[0]
    return [item(words) for words in re.findall(r"(?m)^\.It (Li .*)$", body)]


def refusals():
    """What the debugger's code prints in the place of a command."""
    code = "".join(read(os.path.relpath(path, TOP)) for path in glob.glob(os.path.join(TOP, "crates/xfs_*/src/**/*.rt"), recursive=True))
    whole = re.findall(r'\brefuse\(\s*text,\s*"([^"]*)\\n"', code)
    headed = re.findall(r'\brefuse_word\(\s*text,\s*"([^"]*)"', code)
    return set(whole) | {head + HOLE for head in headed}


def helped(tool):
    """The letters of the options and the statuses that the help of a tool tells."""
    said = read("crates/xfs_texts/specs/Help.antt")
    rows = re.search(rf"(?ms)^{HELPED[tool]}_rows =\n(.*?)\n\n", said)[1]
    ends = re.search(rf'(?m)^{HELPED[tool]}_ends = codes "(.*)"$', said)[1]
    return [chr(int(letter)) for letter in re.findall(r"\((\d+), codes", rows)], re.findall(r"status (\d+)", ends)


def described(page):
    """The letters of the options that a page describes, and its statuses."""
    body, rest = page.split("\n.Sh EXIT STATUS\n")
    statuses = re.findall(r"(?m)^\.It (\d+)$", rest.split("\n.Sh ")[0])
    options = body.split("\n.Sh DESCRIPTION\n")[1]
    return set(re.findall(r"(?m)^\.(?:It )?Fl ([A-Za-z])(?= |$)", options)), statuses


def compare(page, what, shown, wanted):
    """Prints what the page has too much or too little, and whether that is nothing."""
    for line in sorted(set(shown) - wanted):
        print(f"{page}: no {what} of the program: {line}")
    for line in sorted(wanted - set(shown)):
        print(f"{page}: lacks the {what}: {line}")
    for line in sorted({line for line in shown if shown.count(line) > 1}):
        print(f"{page}: stands twice: {line}")
    return set(shown) == wanted and len(set(shown)) == len(shown)


def is_shown_right(path):
    """Whether both programs show the page without a warning."""
    right = True
    for command in (["mandoc", "-Tlint", "-W", "warning"], ["man", "--warnings", "-l"]):
        run = subprocess.run(command + [path], capture_output=True, text=True, env=dict(os.environ, LC_ALL="C.UTF-8", MANPAGER="cat"))
        said = run.stderr + (run.stdout if command[0] == "mandoc" else "")
        if said.strip() or run.returncode:
            print(f"{' '.join(command)}: {said.strip()}")
            right = False
    return right


def main():
    answers = texts()
    right = True
    for tool in TOOLS:
        path = os.path.join(TOP, "man", tool + ".8")
        page = read(f"man/{tool}.8")
        lines = {line.rstrip("\n") for line in due(tool, answers)}
        right &= compare(tool, "answer", listed(page, "ANSWERS"), lines)
        letters, statuses = helped(tool)
        options, ends = described(page)
        right &= compare(tool, "option", letters, options)
        right &= compare(tool, "status", statuses, set(ends))
        if tool == "xfs_db":
            right &= compare(tool, "refusal", listed(page, "REFUSALS"), refusals())
        right &= is_shown_right(path)
        print(f"{tool}: {len(lines)} answers")
    return 0 if right else 1


sys.exit(main())
