#!/usr/bin/env python3
"""Counts the places in src/ that an older form of the language may have left, point by point (docs/DESIGN-PASS.md).

    python3 tools/places.py [COMMIT] [--list]

counts in the files as they stand, or as they stood at a commit; --list prints each place. A pattern finds candidates: what stays
of them stands in docs/DESIGN-PASS.md with its reason.
"""
import re
import subprocess
import sys

PATTERNS = [
    ("1 a number for a refusal", r"-> Result<(?:\[[^\]]*\]|[^<>{};\[\]])+, (?:usize|u8|u16|u32)>"),
    ("1 a refusal passed on by hand", r"Err\(\w+\) => (?:return )?Err\(|if let Err\((?:\w+)\) = [^{]*\{\s*return Err"),
    ("1 a case that cannot come, in a match", r"=> unreachable!?\(\)|else \{\s*unreachable!?\(\)"),
    ("1 an Option or Result taken apart for a bool or a unit", r"None => false|if let Some\(_\)|Err\(NotMade \{ \.\. \}\) => Ok\(\(\)\)|is_err\(\)"),
    ("1 a bool told beside a change", r"fn \w+\(&mut self[^{]*?-> bool"),
    ("1 0 for none", r"//[^\n]*\b(?:or|are|and|with|place,) 0\b|found = 0;"),
    ("3 a loop over an index or a number", r"for \w+ in [^{\n]*\.\.[^{\n]*\{"),
    ("3 a loop with an early return", r"for [^{\n]* in [^{\n]*\{(?:[^{}]|\{(?:[^{}]|\{[^{}]*\})*?\})*?\breturn\b|for [^{\n]* in [^{\n]*\{\s*(?:let [^;]*;\s*)*if [^{]*\{\s*return\b"),
    ("4 a conversion or a printing by hand", r"fn (?:\w+_of\(\w+: \w+\)|name_of|from_\w+|to_\w+|tell_node|tell_refusal)"),
    ("4 a struct copied field by field", r"\{\s*(\w+): (\w+)\.\1,\s*(\w+): \2\.\3,"),
    ("6 a fixed array in a struct or an answer", r"(?:pub(?:\(crate\))? )?\w+: \[[\w:]+; \w+\],|-> (?:Result<)?\[\w+; \w+\]"),
    ("6 a count beside a slice or an array", r"\b(?:count|used|depth|worlds): (?:usize|u8|u32),"),
    ("7 a table or a switch of functions", r"\bfn\([^)]*\) ->|\[(?:\w+, )*\w+\]\[\w+\]\(|Box<dyn|&dyn"),
]
FACTS = re.compile(r"\b(?:requires|ensures)(?: \w+)? \{ (.*) \}")
PARAMETERS = re.compile(r"fn \w+(?:<[^(]*>)?\(([^)]*)\)", re.S)


def files(commit):
    if commit is None:
        names = subprocess.run(["git", "ls-files", "crates"], capture_output=True, text=True, check=True).stdout.split()
        for name in names:
            if "/src/" in name and name.endswith(".rt"):
                try:
                    yield name, open(name, encoding="utf-8").read()
                except FileNotFoundError:
                    pass
        return
    names = subprocess.run(["git", "ls-tree", "-r", "--name-only", commit, "crates"], capture_output=True, text=True, check=True).stdout.split()
    for name in names:
        if "/src/" in name and name.endswith(".rt"):
            yield name, subprocess.run(["git", "show", f"{commit}:{name}"], capture_output=True, text=True, check=True).stdout


def line(text, at):
    return text.count("\n", 0, at) + 1


def main():
    words = [w for w in sys.argv[1:] if not w.startswith("--")]
    listing = "--list" in sys.argv
    sources = list(files(words[0] if words else None))
    for title, pattern in PATTERNS:
        found = [(name, line(text, m.start()), m.group(0)) for name, text in sources for m in re.finditer(pattern, text)]
        print(f"{title}: {len(found)}")
        if listing:
            for name, at, what in found:
                print(f"    {name}:{at}  {' '.join(what.split())[:100]}")
    facts = {}
    groups = {}
    for name, text in sources:
        for m in FACTS.finditer(text):
            facts.setdefault(m.group(1), []).append(f"{name}:{line(text, m.start())}")
        for m in PARAMETERS.finditer(text):
            typed = re.findall(r"(\w+): ([^,]+)", m.group(1))
            for i in range(len(typed)):
                for j in range(i + 1, len(typed)):
                    groups.setdefault(" + ".join(n for n, _ in (typed[i], typed[j])), []).append(f"{name}:{line(text, m.start())}")
    for title, table in (("5 a fact in three contracts or more", facts), ("5 two parameters together in four functions or more", groups)):
        least = 3 if table is facts else 4
        often = {k: v for k, v in table.items() if len(v) >= least}
        print(f"{title}: {len(often)}")
        if listing:
            for what, places in often.items():
                print(f"    {len(places)} x {what[:110]}  {places[0]} ..")


main()
