#!/usr/bin/env python3
"""Respells this repository's own definitions and lemmas as today's Rattle spells names: words in snake case.

usage: respell.py [--check]    at the top of the repository, once, after the kit's port.py

A name counts as ours if a file of specs/ or proofs/ declares it. Of a name that would meet another in some file, the lemma gets `_lem`.
What only a function's own proof file declares keeps its name, since most of those are Rattle's labels; the proof itself, F-spec, is spelled F_spec.
Behind c, w, l, g and goal stand Rattle's own labels, which stay. With --check nothing is written, and what would meet is shown.
"""

import collections
import glob
import os
import re
import sys

WORD = re.compile(r"[^\s(){}.;,@\"«»λ`]+")
DECLARED = re.compile(r"(?m)^( *)((?:(?:abbrev|unfoldable|pub|data|record|module) )*)([^\s(){}.;,@\"«»]+)((?: \{[^{}\n]*\}| \([^()\n]*\))*) :(?= |$)")
OWN_FOLDER = re.compile(r"/(Proof|Answers|Invariants)\.antt$")
LABELS = re.compile(r"(?<![^\s(){},;])((?:c|w|l|g|goal|tie)(?:\.[^\s(){};,]+)+)")

# Names that need one of their own: a field may not be called as its record's parameter, nor a law as the definition that it is about.
GIVEN = {
    "at-C": "at_c_is",
    "atC": "at_c",
    "by-C": "by_c",
    "by-D": "by_d",
    "to-B": "to_b",
    "to-C": "to_c",
    "to-D": "to_d",
    "none-to-D": "none_to_d",
    "no-D-falls": "no_d_falls",
}


def texts(root="."):
    for pattern in ("crates/*/specs/*.antt", "crates/*/proofs/**/*.antt"):
        yield from sorted(glob.glob(os.path.join(root, pattern), recursive=True))


def snake(name):
    return re.sub(r"(?<=[a-z0-9])[A-Z]+", lambda m: "_" + m[0].lower(), name).replace("-", "_")


def declared():
    """Each name that our texts declare, with the files that do."""
    found = collections.defaultdict(set)
    for path in texts():
        for m in DECLARED.finditer(open(path).read()):
            if not m[3].startswith("--"):
                found[m[3]].add(path)
    return found


def is_camel(name):
    return re.match(r"[a-z]", name) and re.search(r"[a-z0-9][A-Z]", name) and "-" not in name


def table():
    names = declared()
    words = {}
    for path in texts():
        lines = [l for l in open(path) if not l.lstrip().startswith("--")]
        words[path] = set(WORD.findall("".join(lines)))
    turned = {}
    for name, files in names.items():
        if not re.match(r"[a-z]", name) or name == snake(name) or name in GIVEN:
            continue
        if not is_camel(name) and all(OWN_FOLDER.search(f) for f in files):
            if name.endswith("-spec"):
                turned[name] = snake(name)
            continue
        turned[name] = snake(name)
    turned.update({k: v for k, v in GIVEN.items() if k in names})
    # A lemma that would meet another name in some file.
    taken = collections.defaultdict(set)
    for old, new in turned.items():
        taken[new].add(old)
    for old, new in sorted(turned.items()):
        if is_camel(old):
            continue
        others = (taken[new] | {new}) - {old}
        if any(old in w and w & others for w in words.values()):
            turned[old] = new + "_lem"
    meets = []
    for old, new in sorted(turned.items()):
        others = ({k for k, v in turned.items() if v == new} | {new}) - {old}
        for path, w in words.items():
            if old in w and w & others:
                meets.append(f"{path}: {old} -> {new} meets {' '.join(sorted(w & others))}")
    return turned, meets


def turn_antt(text, turned):
    def one(m):
        return turned.get(m[0], m[0])

    out = []
    for line in text.split("\n"):
        kept = []

        def hide(m):
            kept.append(m[0])
            return f"\x00{len(kept) - 1}\x00"

        line = LABELS.sub(hide, line)
        line = WORD.sub(one, line)
        out.append(re.sub("\x00(\\d+)\x00", lambda m: kept[int(m[1])], line))
    return "\n".join(out)


def turn_prose(text, turned):
    """In code, prose and scripts only what can be nothing else: a name with a capital inside, and a name with a dash in a code span."""
    camels = {k: v for k, v in turned.items() if is_camel(k)}
    text = re.sub(r"(?<![\w-])[a-z]\w*(?![\w-])", lambda m: camels.get(m[0], m[0]), text)
    return re.sub(r"`[^`\n]+`", lambda s: re.sub(r"(?<![\w-])[a-z][\w-]*", lambda m: turned.get(m[0], m[0]), s[0]), text)


def main(argv):
    turned, meets = table()
    print(f"{len(turned)} names")
    for line in meets:
        print("meets:", line)
    if "--check" in argv:
        for old, new in sorted(turned.items()):
            if new != snake(old):
                print(f"{old} -> {new}")
        return 0
    for path in texts():
        was = open(path).read()
        now = turn_antt(was, turned)
        if now != was:
            open(path, "w").write(now)
    for pattern in ("crates/*/src/**/*.rt", "README.md", "docs/*.md", "docs/changes/*.md", "tests/**/*", "tools/*.sh", "firmware/**/*.md", "include/*.h"):
        for path in sorted(glob.glob(pattern, recursive=True)):
            if os.path.isdir(path) or path == "docs/01-scope.md":
                continue
            was = open(path).read()
            now = turn_prose(was, turned)
            if now != was:
                open(path, "w").write(now)
    return 0


if __name__ == "__main__":
    raise SystemExit(main(sys.argv[1:]))
