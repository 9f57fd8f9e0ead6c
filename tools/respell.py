#!/usr/bin/env python3
"""Brings the repository's own definitions and lemmas to one spelling: words and lemmas in snake case, types and facts in camel case.

    python3 tools/respell.py          at the top of the repository, once, after the kit's port.py

It goes by text: a name with a dash, or with a hump, that a file of specs/ or proofs/ defines (or brings in under such a name
by `as`) gets the new spelling wherever it stands: in .antt files, in .rt files outside of strings, and in comments between
backticks. A name behind a dot is turned if it is a field of a record at the top of a file, or stands behind a module.
Names that Rattle makes of the code (goals, steps) and the library's names stay. Two names that would fall together are
told, and nothing is written.
"""

import os
import re
import sys

NAME = r"[^\W\d][\w']*(?:-[\w']+)*"
TOKEN = re.compile(r"(?<![\w'\-])" + NAME + r"(?![\w'\-])")
SIGNATURE = re.compile(r"\s*(?:pub )?(?:abbrev |unfoldable )*(?:pub )?(" + NAME + r") : ?(.*)")
HEAD = re.compile(r"\s*(?:pub )?(?:record|data) (" + NAME + ")")
FIELD = re.compile(r"\s+pub (" + NAME + ") :")
LET = re.compile(r"\b(?:let|in) (" + NAME + r") (?::|=)")
PARAMETERS = re.compile(r"[({]((?:" + NAME + r" )+): ")
RENAMED = re.compile(r"\bas (" + NAME + r")\b")
# the library's own names, which a proof may bring in
KEPT = {"add-zero", "zero-add", "add-one"}
# an older name of the library at the head of ours, as it was and as the kit's script had turned it
OLDER = (("getD-", "get_or_"), ("get_d_", "get_or_"))


def files(ending):
    for folder, dirs, names in os.walk("crates"):
        dirs[:] = sorted(d for d in dirs if d != "out")
        for name in sorted(names):
            if name.endswith(ending):
                yield os.path.join(folder, name)


def read(path):
    with open(path, encoding="utf-8") as f:
        return f.read()


def humped(name):
    return name[0].islower() and re.search(r"[A-Z]", name) and not re.search(r"-[A-Z]", name)


def spelt(name):
    for old, new in OLDER:
        if name.startswith(old):
            name = new + name[len(old):]
    if name[0].isupper():
        first, *rest = name.split("-")
        return first + "".join(w[:1].upper() + w[1:] for w in rest)
    return re.sub(r"(?<=[a-z0-9])([A-Z])", lambda m: "_" + m[1].lower(), name).replace("-", "_")


def defined():
    """The names of our own that want another spelling; and those of them that are fields of records."""
    names, fields = set(), set()
    for path in files(".antt"):
        inside = False
        for line in read(path).splitlines():
            line = line.split("--")[0] if line.lstrip().startswith("--") else line
            at_top = line[:1].strip() != ""
            if at_top:
                inside = bool(re.match(r"(?:pub )?record ", line))
            found = [m[1] for m in (HEAD.match(line),) if m]
            signature = SIGNATURE.match(line)
            if signature and not signature[2].startswith("goal."):
                found.append(signature[1])
            found += LET.findall(line) + [n for group in PARAMETERS.findall(line) for n in group.split()] + RENAMED.findall(line)
            names.update(found)
            if inside and FIELD.match(line):
                fields.add(FIELD.match(line)[1])
    for path in files(".rt"):
        for line in read(path).splitlines():
            if line.lstrip().startswith("ghost use "):
                names.update(RENAMED.findall(line))
    wanted = {n for n in names if ("-" in n or n.startswith("get_d_") or humped(n)) and n not in KEPT}
    return wanted, fields & wanted


def is_ours(text, at, name, wanted, fields):
    if name not in wanted:
        return False
    if at == 0 or text[at - 1] != ".":
        return True
    before = re.search(r"([\w'·]+)\.$", text[:at])
    return name in fields or bool(before and before[1][0].isupper())


def respell(text, wanted, fields):
    return TOKEN.sub(lambda m: spelt(m[0]) if is_ours(text, m.start(), m[0], wanted, fields) else m[0], text)


def quoted(text, wanted, fields):
    return re.sub(r"`[^`\n]*`", lambda m: respell(m[0], wanted, fields), text)


def turned(line, mark, wanted, fields):
    at = line.find(mark)
    if at < 0:
        return respell(line, wanted, fields)
    return respell(line[:at], wanted, fields) + quoted(line[at:], wanted, fields)


def strings_kept(line, wanted, fields):
    parts = re.split(r'("(?:[^"\\]|\\.)*")', line)
    return "".join(p if p.startswith('"') else turned(p, "//", wanted, fields) for p in parts)


def fallen(text, wanted):
    """New names that the text had already, for something else: a function or a module is no such thing, as no clause names one."""
    text = re.sub(r"(?m)(--|//).*$|^(?:ghost )?use [\w.]+|^use .*;$", "", text)
    functions = set(re.findall(r"\bfn (" + NAME + ")", text)) | set(re.findall(r"(" + NAME + r")\(", text))
    words = {m[0] for m in TOKEN.finditer(text)} - functions
    return sorted((n, spelt(n)) for n in words & wanted if spelt(n) in words)


def main():
    wanted, fields = defined()
    by_new = {}
    for name in sorted(wanted):
        by_new.setdefault(spelt(name), []).append(name)
    clashes = [f"{new}: {', '.join(old)}" for new, old in sorted(by_new.items()) if len(old) > 1]
    written = {}
    for ending, turn in ((".antt", lambda l: turned(l, "--", wanted, fields)), (".rt", lambda l: strings_kept(l, wanted, fields))):
        for path in files(ending):
            text = read(path)
            clashes += [f"{path}: {old} would fall together with {new}" for old, new in fallen(text, wanted)]
            new = "".join(turn(line) for line in text.splitlines(keepends=True))
            if new != text:
                written[path] = new
    if "--list" in sys.argv:
        print("\n".join(f"{n} {spelt(n)}" for n in sorted(wanted)))
        return 0
    if clashes:
        print("\n".join(clashes))
        return 1
    for path, text in written.items():
        with open(path, "w", encoding="utf-8") as f:
            f.write(text)
    print(f"{len(wanted)} names, {len(written)} files")
    return 0


if __name__ == "__main__":
    raise SystemExit(main())
