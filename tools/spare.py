#!/usr/bin/env python3
"""Lists the answers that the check finds without them; with --drop takes them out.

Usage: python3 tools/spare.py [--drop] [--margin] CRATE..
Works in the crate's folder: takes all answers out, checks, puts back those that are asked for, and checks again until none is.
With --margin the search has half its limits, so that an answer is listed only where it is found with room to spare.
"""
import pathlib, re, subprocess, sys

HEAD = re.compile(r"^pub ([^\s:]+) : goal\.(\S+)\s*$")
NEEDED = re.compile(r"`([^`]+)` of (proofs/\S+/Answers\.antt) must prove")
WRONG = re.compile(r"^\./(proofs/\S+/Answers\.antt):\d+:\d+: error", re.M)


def answers(lines):
    """The answers of a file: the goal, the first line, the line past the last."""
    found, i = [], 0
    while i < len(lines):
        head = HEAD.match(lines[i])
        j = i + 1
        if head:
            while j < len(lines) and (lines[j].startswith(" ") or lines[j].split(" ")[0] == head.group(1)):
                j += 1
            found.append((head.group(2), i, j))
        i = j
    return found


def without(text, goals):
    """The file without the answers to some goals; None where no answer is left."""
    lines = text.split("\n")
    found = answers(lines)
    if all(goal in goals for goal, _, _ in found):
        return None
    for goal, i, j in reversed(found):
        if goal in goals:
            while j < len(lines) and lines[j] == "":
                j += 1
            del lines[i:j]
    return "\n".join(lines).rstrip("\n") + "\n"


def write(path, text):
    if text is None:
        path.unlink(missing_ok=True)
    else:
        path.write_text(text)


def spare(crate, drop, margin):
    root = pathlib.Path("crates") / crate
    texts = {f: f.read_text() for f in sorted(root.glob("proofs/**/Answers.antt"))}
    out = {f: {goal for goal, _, _ in answers(t.split("\n"))} for f, t in texts.items()}
    total = sum(map(len, out.values()))
    try:
        asked = total > 0
        while asked:
            for f, t in texts.items():
                write(f, without(t, out[f]))
            run = subprocess.run(["rt", "check", "--allow-holes", *margin], cwd=root, capture_output=True, text=True)
            said = run.stdout + run.stderr
            back = {f: set() for f in texts}
            for goal, rel in NEEDED.findall(said):
                back[root / rel] = back.get(root / rel, set()) | {g for g in out.get(root / rel, ()) if goal == g or goal.startswith(g + "-clause-")}
            for rel in WRONG.findall(said):
                back[root / rel] = out.get(root / rel, set())
            asked = any(back.get(f) for f in texts)
            for f in texts:
                out[f] -= back[f]
            if not asked and "not proved" in said:
                raise SystemExit(f"{crate}: the check fails, and no answer is asked for")
    finally:
        for f, t in texts.items():
            write(f, without(t, out[f]) if drop else t)
    for f in texts:
        for goal in sorted(out[f]):
            print(f"{crate}: {f.relative_to(root)}: {goal}")
    return total, sum(map(len, out.values()))


def main():
    flags = [a for a in sys.argv[1:] if a.startswith("--")]
    all_of = idle = 0
    for crate in [a for a in sys.argv[1:] if not a.startswith("--")]:
        t, s = spare(crate, "--drop" in flags, [a for a in flags if a == "--margin"])
        print(f"{crate}: {s} of {t} answers are found without them", flush=True)
        all_of += t
        idle += s
    print(f"{idle} of {all_of} answers are found without them")


main()
