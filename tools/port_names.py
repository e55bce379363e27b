#!/usr/bin/env python3
"""Brings the repository's own names to the spelling of the library, after port.py. Run once, at the top of the repository.

Definitions of specs/ and proofs/ are in snake case (`slotAt` becomes `slot_at`), in .antt files, clauses and must-fail edits.
A lemma whose hyphen became an underscore, and which would then have the name of a definition, keeps its hyphen.
The crate `log` has the name of a library of the kit and becomes `lane_log`.
Each root file says #![tactic(auto)].
"""

import os
import re
import subprocess

CAMEL = re.compile(r"(^|[-_])[a-z][a-z0-9]*[A-Z]")
WORD = re.compile(r"[A-Za-z][\w'-]*")
# Lemmas with the words of a definition: their hyphen tells them apart.
HYPHEN = """entry_in in_lane left_by kept_by lane_room all_words too_long settle_step after_drain closing_at is_below
left_after olds_of with_all lane_in over_first first_part too_far goes_on odd_base part_length two_lanes""".split()


def snake(word):
    def part(p):
        if re.match(r"[a-z]", p):
            p = re.sub(r"([a-z0-9])([A-Z]+)(?![a-z])", lambda m: m.group(1) + "_" + m.group(2).lower(), p)
            p = re.sub(r"([a-z0-9])([A-Z])", lambda m: m.group(1) + "_" + m.group(2).lower(), p)
        return p

    return "".join(part(p) for p in re.split(r"([-_])", word)).replace("get_d", "get_or")


def respelled(text):
    return WORD.sub(lambda m: snake(m.group(0)) if CAMEL.search(m.group(0)) else m.group(0), text)


def hyphens(text):
    for w in HYPHEN:
        text = re.sub(r"(?<![\w.:'-])" + w + r"(?![\w'-])", w.replace("_", "-"), text)
    return text


def crate_paths(text):
    text = re.sub(r"\bRattle\.log\.", "Rattle.lane_log.", text)
    return re.sub(r"(?<![\w:])log::(?=[a-z{])", "lane_log::", re.sub(r"\buse log::", "use lane_log::", text))


def with_tactics(text):
    if "#![tactic(" in text:
        return text
    lines = text.split("\n")
    i = 0
    while i < len(lines) and lines[i].startswith("//"):
        i += 1
    lines.insert(i, "#![tactic(auto)]\n" if i < len(lines) and lines[i] != "" else "#![tactic(auto)]")
    return "\n".join(lines)


def turned(path, text):
    if path.endswith(".antt"):
        text = hyphens(text)
    text = crate_paths(respelled(text))
    if path.endswith(("/src/lib.rt", "/src/main.rt")):
        text = with_tactics(text)
    return text


def main():
    subprocess.run(["git", "mv", "crates/log", "crates/lane_log"], check=True)
    for folder, dirs, files in os.walk("crates"):
        dirs[:] = sorted(d for d in dirs if d != "out")
        for f in sorted(files):
            if f.endswith((".antt", ".rt", ".edit")):
                path = os.path.join(folder, f)
                with open(path, encoding="utf-8") as it:
                    old = it.read()
                new = turned(path, old)
                if new != old:
                    with open(path, "w", encoding="utf-8") as it:
                        it.write(new)
    with open("crates.txt", encoding="utf-8") as it:
        text = it.read()
    lines = [l if l.startswith("#") else re.sub(r"\blog\b", "lane_log", l) for l in text.split("\n")]
    with open("crates.txt", "w", encoding="utf-8") as it:
        it.write("\n".join(lines))


if __name__ == "__main__":
    main()
