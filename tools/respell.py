#!/usr/bin/env python3
"""Brings the repository's own definitions and lemmas to today's spelling, in one run over a checkout as port.py leaves it.

Functions, fields and constructors of specs/ get snake case: `least-from` and `anyBelow` become `least_from` and `any_below`.
A lemma keeps a dash only where it joins two names that are defined, as in `meet-allows`; a plain word hangs on by `_`, as in
`between_mono`. Types, modules, names of the library, of Rattle source and of goals keep their spelling.

    python3 tools/respell.py          respell in place
    python3 tools/respell.py --list   print old and new names, and names that would fall together
"""
import glob
import re
import sys

NAME = re.compile(r"[A-Za-z][\w'′]*(?:-[\w'′]+)*")
WHOLE = re.compile(r"^[A-Za-z][\w'′]*(?:-[\w'′]+)*$")
TOKEN = re.compile(r"(?<![\w'′-])«?([A-Za-z][\w'′]*(?:-[\w'′]+)*)»?(?![\w'′])")
MARKS = {"pub", "abbrev", "unfoldable", "rewrite", "opaque", "pattern", "axiom", "irreducible"}
NOT_NAMES = {"let", "in", "where", "module", "use", "unfolding", "mod", "open"}
# Files of lemmas that stand in specs/ since a law's answer cites them.
LEMMAS = ("BothLaws.antt", "AlignLaws.antt", "SpanLaws.antt", "Rests.antt")
# Where the rule gives no good name, or one that another name has.
BY_HAND = {
    "inConflict": "any_in_conflict",
    "in-force": "all_in_force",
    "body-makes": "body_makes_lem",
    "grows-term": "grows_term_lem",
    "or-name": "or_name_lem",
    "owner-known": "owner_known_lem",
    "by_name": "by_name_lem",
    "getD-upd": "get_or-upd",
    "getD-seam": "get_or-seam",
    "in-U": "in_u",
    "test-T": "test_t",
    "R-is": "r_is",
    "Passed-down": "PassedDown",
    "Passed-up": "PassedUp",
    "s1M": "one_to_most",
    "s2M": "two_to_most",
    "sM0": "least_to_zero",
    "sMM": "least_to_most",
}


def defined(path):
    """The names that a file's signatures declare."""
    names = []
    for line in open(path, encoding="utf-8"):
        words = re.sub(r"(^|\s)--.*$", "", line).split()
        at = 0
        while at < len(words) and words[at] in MARKS:
            at += 1
        if at < len(words) and words[at] in ("data", "record"):
            continue
        here = []
        while at < len(words) and WHOLE.match(words[at]) and words[at] not in NOT_NAMES:
            here.append(words[at])
            at += 1
        while at < len(words) and re.match(r"^\{[ℓκ,]*\}?$", words[at]):
            at += 1
        if here and at < len(words) and words[at] == ":":
            rest = " ".join(words[at + 1:])
            if "/specs/" not in path and re.match(r"goal\.", rest) and NAME.match(rest[5:]).group(0) == here[0]:
                continue
            if re.match(r"(loop|sums|term)?-?(invariant|decreases)", here[0]):
                continue
            names += here
    return names


def snake(word):
    """One part of a name in snake case."""
    return re.sub(r"([a-z0-9'])([A-Z])", lambda m: m.group(1) + "_" + m.group(2).lower(), word)


def plain(name):
    return snake(name.replace("′", "'")).replace("-", "_")


def lemma(name, names):
    """A dash stays between two names, and a plain word hangs on by `_`."""
    parts = [snake(p) for p in name.replace("′", "'").split("-")]
    pieces = []
    at = 0
    while at < len(parts):
        for end in range(len(parts), at, -1):
            joined = "_".join(parts[at:end])
            if joined in names:
                pieces.append((joined, True))
                at = end
                break
        else:
            pieces.append((parts[at], False))
            at += 1
    out, last = pieces[0]
    for piece, known in pieces[1:]:
        out += ("-" if last and known else "_") + piece
        last = known
    return out


def wants(name):
    return name in BY_HAND or "-" in name or "′" in name or re.match(r"^[a-z]\w*[A-Z]", name)


def table():
    specs, lemmas, imported = set(), set(), set()
    local = {}
    for path in sorted(glob.glob("crates/*/specs/**/*.antt", recursive=True) + glob.glob("crates/*/proofs/**/*.antt", recursive=True)):
        names = defined(path)
        if path.endswith(LEMMAS) or re.match(r"crates/\w+/proofs/\w+\.antt$", path):
            lemmas |= set(names)
        elif "/specs/" in path:
            specs |= set(names)
        else:
            local[path] = set(names)
        for line in open(path, encoding="utf-8"):
            found = re.match(r"use Rattle\.std\.specs\.\w+\.\{(.*)\}", line)
            if found:
                imported |= {w.strip() for w in found.group(1).split(",")}
    names = {plain(n) for n in specs} | {n for n in imported if re.match(r"^[a-z]\w{2,}$", n)}
    names -= {"is", "no", "one", "two", "of", "at", "on", "more", "none", "made", "new", "within"}
    new = {}
    for n in specs:
        if wants(n):
            new[n] = BY_HAND.get(n) or plain(n)
    for n in lemmas - specs:
        if wants(n):
            new[n] = BY_HAND.get(n) or lemma(n, names)
    own = {p: {n: BY_HAND.get(n) or lemma(n, names) for n in ns if wants(n) and n not in new} for p, ns in local.items()}
    return new, own


def clashes(new):
    """Names that fall together, with one another or with a word that stands somewhere."""
    seen = {}
    words = set()
    for path in glob.glob("crates/*/*/**/*.antt", recursive=True):
        if "/out/" in path:
            continue
        for line in open(path, encoding="utf-8"):
            words |= set(NAME.findall(re.sub(r"(^|\s)--.*$", "", line)))
    for old, name in new.items():
        key = name.replace("-", "_")
        if seen.setdefault(key, old) != old:
            print("together:", old, seen[key], "->", name)
        if name in words and name not in new:
            print("stands already:", old, "->", name)


def respell(text, names):
    return TOKEN.sub(lambda m: names.get(m.group(1), m.group(0)), text)


def turned(path, text, names):
    out = []
    for line in text.split("\n"):
        mark = r"(^|\s)--(?=\s|$)" if path.endswith(".antt") else r"//"
        found = re.search(mark, line) if not path.endswith(".edit") else None
        code, note = (line[:found.start()], line[found.start():]) if found else (line, "")
        code = "".join(p if i % 2 else respell(p, names) for i, p in enumerate(re.split(r'("(?:[^"\\]|\\.)*")', code)))
        note = re.sub(r"`[^`]*`", lambda m: respell(m.group(0), names), note)
        out.append(code + note)
    return "\n".join(out)


def main():
    new, own = table()
    clashes(new)
    if "--list" in sys.argv:
        for old in sorted(new):
            print(old, new[old])
        for path in sorted(own):
            for old in sorted(own[path]):
                print(path, old, own[path][old])
        return
    paths = []
    for kind in ("specs/**/*.antt", "proofs/**/*.antt", "src/**/*.rt", "must-fail/*.edit"):
        paths += glob.glob("crates/*/" + kind, recursive=True)
    for path in sorted(paths):
        text = open(path, encoding="utf-8").read()
        now = turned(path, text, {**new, **own.get(path, {})})
        if now != text:
            open(path, "w", encoding="utf-8").write(now)
    for path in sorted(glob.glob("docs/*.md") + ["README.md"]):
        text = open(path, encoding="utf-8").read()
        now = re.sub(r"`[^`\n]*`", lambda m: respell(m.group(0), new), text)
        if now != text:
            open(path, "w", encoding="utf-8").write(now)


main()
