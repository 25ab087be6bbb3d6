#!/usr/bin/env python3
"""Brings this repository's own definitions and lemmas to one spelling: words in snake case, types in camel case.

Run once at the top of the checkout, right after the toolchain's port script:

    python3 tools/spell-names.py

It reads which names specs/ and proofs/ declare with a dash, and the aliases that imports give, and writes each of them
anew in every proof file and source file. Names that the toolchain makes, text in quotes, comments and the names of Rust
functions stay. It refuses to run if two names would fall together.
"""
import glob
import re
import sys

WORD = r"[^\W\d][\w']*(?:-[\w']+)*"
DECLARED = re.compile(
    r"\s*(?:pattern |unfoldable |abbrev |pub |data |record )*([A-Za-z][\w']*(?:-[\w']+)+)\s*(?:[({].*[)}])?\s*:\s"
)
ALIAS = re.compile(r"\bas ([A-Za-z][\w']*(?:-[\w']+)+)")
LOCAL = ["now-is", "bytes-here"]
# an alias that the port script wrote with the ending of a lemma
SPECIAL = {"step_of_lem": "step_by_way"}
# lemmas that would have the name of the public function whose law they prove
LAWS = [
    "drains-keep-looks",
    "limits-only-refuse",
    "other-threads-stay",
    "refused-steps-leave-the-run",
    "rounds-are-stretches",
    "small-tables",
]
SPECIAL |= {law: law.replace("-", "_") + "_lem" for law in LAWS}


def spelled(name):
    if name in SPECIAL:
        return SPECIAL[name]
    if name[0].isupper():
        return "".join(part[0].upper() + part[1:] for part in name.split("-"))
    return name.replace("-", "_")


def code_of(line):
    return line.split("--")[0]


def own_names(files):
    names = set(LOCAL) | set(SPECIAL)
    for path in files:
        declares = "/specs/" in path or path.count("/") == 3
        for line in open(path, encoding="utf-8"):
            found = DECLARED.match(code_of(line))
            if declares and found:
                names.add(found.group(1))
            if line.lstrip().startswith(("use ", "ghost use ")):
                names.update(ALIAS.findall(line))
    return names


def fall_together(names, files):
    here = {}
    for name in names:
        here.setdefault(spelled(name), []).append(name)
    bad = [f"{new}: {', '.join(sorted(old))}" for new, old in here.items() if len(old) > 1]
    taken = set()
    for path in files:
        text = open(path, encoding="utf-8").read()
        if path.endswith(".antt"):
            text = "\n".join(code_of(line) for line in text.split("\n"))
            for word in re.findall(WORD, text):
                taken.add((word, path))
    for word, path in sorted(taken):
        if word in here and word not in names:
            bad.append(f"{word}: a word of {path} already")
    return bad


def respell(text, names, is_source):
    left_alone = r'"(?:[^"\\\n]|\\.)*"|' + (r"//[^\n]*|" if is_source else r"--[^\n]*|")
    pattern = re.compile(left_alone + WORD)
    return pattern.sub(lambda m: spelled(m.group()) if m.group() in names else m.group(), text)


def main():
    proofs = sorted(glob.glob("crates/*/specs/*.antt") + glob.glob("crates/*/proofs/**/*.antt", recursive=True))
    sources = sorted(glob.glob("crates/*/src/**/*.rt", recursive=True))
    names = own_names(proofs + sources)
    bad = fall_together(names, proofs + sources)
    if bad and "--force" not in sys.argv:
        sys.exit("names that fall together:\n  " + "\n  ".join(bad))
    for path in proofs + sources:
        old = open(path, encoding="utf-8").read()
        new = respell(old, names, path.endswith(".rt"))
        if new != old:
            open(path, "w", encoding="utf-8").write(new)
    print(f"{len(names)} names")


main()
