#!/usr/bin/env python3
"""Brings the names of goals, places and values in a crate's proof files to those that today's check asks for.

    python3 tools/goals.py NAME..     reads crates/NAME/proofs/F and the names that `rt check --generated` lists for F

A name that the check does not know, and that differs from one that it knows in dashes, underscores or a prefix `overflow` alone, becomes that one.
"""
import glob
import json
import os
import re
import subprocess
import sys
import tempfile

TOKEN = re.compile(r"(?<![\w'′-])([A-Za-z][\w'′]*(?:[-+][\w'′]+)*)(?![\w'′])")


def strings(value, out):
    if isinstance(value, str):
        if re.match(r"^[A-Za-z][\w'+-]*$", value):
            out.add(value)
    elif isinstance(value, list):
        for v in value:
            strings(v, out)
    elif isinstance(value, dict):
        for k, v in value.items():
            strings(v, out)
    return out


def known(entry):
    """The names that stand for a function's goals and places today."""
    out = set()
    for pair in entry["needs"]:
        out.add(pair[1])
    for place in entry["places"]:
        out.add(place[2][1])
    for name in entry["places_by_name"]:
        out.add(name)
    for part in ("arms", "asked", "clauses", "loops", "settled", "typed", "changed"):
        strings(entry.get(part), out)
    return {n for n in out if n}


def key(name):
    return re.sub(r"^overflow_", "", name.replace("-", "_"))


def main():
    for crate in sys.argv[1:]:
        with tempfile.TemporaryDirectory() as listed:
            subprocess.run(["rt", "check", "--generated", listed, "--old-names"], cwd="crates/" + crate, stdout=subprocess.DEVNULL, stderr=subprocess.DEVNULL)
            with open(os.path.join(listed, "names.json"), encoding="utf-8") as names:
                table = json.load(names)
        head = "Rattle-%s-proofs." % crate
        for module, entry in table.items():
            if not module.startswith(head) or ".Lts" not in module:
                continue
            folder, one = module[len(head):].rsplit(".Lts", 1)
            place = "crates/%s/proofs/%s" % (crate, folder.replace(".", "/"))
            names = known(entry)
            # Functions that call one another share a file, and each goal begins with the function's name.
            names |= {one[1:] + "-" + n for n in names} if one else set()
            by_key = {}
            for n in names:
                by_key.setdefault(key(n), set()).add(n)
            for path in glob.glob(place + "/*.antt"):
                text = open(path, encoding="utf-8").read()

                def turn(m):
                    word = m.group(1)
                    if word in names or ("-" not in word and "_" not in word):
                        return word
                    found = by_key.get(key(word), ())
                    return next(iter(found)) if len(found) == 1 else word

                now = "\n".join(l if l.startswith("use ") and "Goals" not in l else TOKEN.sub(turn, l) for l in text.split("\n"))
                if now != text:
                    open(path, "w", encoding="utf-8").write(now)
                    print("turned:", path)


main()
