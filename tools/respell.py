#!/usr/bin/env python3
"""Brings the names that this repository declares in specs/ and proofs/ to snake case, everywhere they are cited.

usage: tools/respell.py            at the top of the repository, once, after the kit's own scripts

A definition, lemma, field or constructor that begins with a small letter loses its humps and its dashes: floorOf is floor_of, held-under
held_under. Types and modules keep their capitals, and functions of src/ their names. The names of a function's goals, which Rattle makes,
stay; so do the declarations of a function's own proof file. A name whose new spelling another name of the repository has gets _lem.
"""
import glob
import re
import sys

QUIET = re.compile(r'--[^\n]*|"(?:[^"\\]|\\.)*"')
TOKEN = re.compile(r"[^\s(){}\[\];,@\"«».:]+")
DECLARED = re.compile(r"(?m)^[ \t]*(?:(?:abbrev|unfoldable|pub|data|infix\S*)[ \t]+)*([^\s(){}.;,:@\"]+)(?:[ \t]+[({][^\n]*?[)}])*[ \t]+:(?=\s)")
HEADS = ("Need-", "In-", "At-", "After-", "Then", "Else", "Start", "Joined")


def in_snake(name):
    name = re.sub(r"(?<=[a-z0-9ₐ-ₜ₀-₉])[A-Z]", lambda m: "_" + m[0].lower(), name)
    return name.replace("-", "_")


def turns(name):
    return bool(re.match(r"[a-zα-ωℓ]", name)) and in_snake(name) != name and re.fullmatch(r"[\w'-]+", name)


def texts():
    found = {}
    for how in ("crates/*/specs/**/*.antt", "crates/*/proofs/**/*.antt", "crates/*/src/**/*.rt"):
        for path in sorted(glob.glob(how, recursive=True)):
            with open(path, encoding="utf-8") as file:
                found[path] = file.read()
    return found


def is_of_a_function(path):
    return "/proofs/" in path and path.endswith("/Proof.antt")


def declared(files):
    names, plain = set(), set()
    for path, text in files.items():
        if path.endswith(".rt") or is_of_a_function(path):
            continue
        code = QUIET.sub(" ", text)
        for name in DECLARED.findall(code):
            (names if turns(name) else plain).add(name)
    return names, plain


USE = re.compile(r"\buse ([^\s;{]+?)(?:\.\{([^}]*)\}|(?=[\s;]))")


def lent(text, crates):
    """The names that a file brings in from a library."""
    found = set()
    for path, items in USE.findall(QUIET.sub(" ", text)):
        steps = path.strip(".").split(".")
        if len(steps) < 2 or steps[0] != "Rattle" or steps[1] not in crates:
            found.update(TOKEN.findall(items) if items else steps[-1:])
    return found


def words(text):
    """The names that a file says, without the steps of its paths to modules."""
    code = re.sub(r"\bRattle(?:\.[\w+]+)+", " ", QUIET.sub(" ", text))
    return set(TOKEN.findall(re.sub(r"(?<=[^\s({,])\.(?!\{)[^\s(){}\[\];,@.:]+", " ", code)))


def table(files, crates):
    names, plain = declared(files)
    said = {path: words(text) for path, text in files.items() if not path.endswith(".rt")}
    new = {old: in_snake(old) for old in names}
    rivals = {}
    for old in names:
        rivals.setdefault(new[old], {new[old]}).add(old)
    for old in sorted(names, key=lambda it: ("-" not in it, it)):
        others = rivals[new[old]] - {old}
        if any(old in there and others & there for there in said.values()):
            where = next(path for path, there in said.items() if old in there and others & there)
            new[old] += "_lem" if "-" in old else "_of"
            rivals[in_snake(old)].discard(old)
            print(f"look: {old} is {new[old]}, since {where} has {', '.join(sorted(others & said[where]))}")
    return new


# A step of the code or a field behind a value, and no name of a module.
BEHIND = re.compile(r"(?<![\w'-])(?!Rattle\.)([a-z][\w'-]*(?:\.[^\s(){}\[\];,@\"«».:]+)+)")


def turned(text, new, antt):
    parts, at = [], 0
    def over(code):
        out, end = [], 0
        for m in BEHIND.finditer(code):
            out.append(TOKEN.sub(lambda it: new.get(it[0], it[0]), code[end : m.start()]))
            head, *steps = m[0].split(".")
            out.append(".".join([new.get(head, head)] + [in_snake(it) if it in new else it for it in steps]))
            end = m.end()
        out.append(TOKEN.sub(lambda it: new.get(it[0], it[0]), code[end:]))
        return "".join(out)

    for quiet in QUIET.finditer(text) if antt else ():
        parts += [over(text[at : quiet.start()]), quiet[0]]
        at = quiet.end()
    parts.append(over(text[at:]))
    return "".join(parts)


def in_source(text, new):
    """Turns ghost lines and clauses alone: the lines of a ghost item, and those from requires or ensures to the body."""
    out, ghost, clause = [], False, False
    for line in text.split("\n"):
        bare = line.strip()
        starts = re.match(r"(requires|ensures|ghost)\b", bare)
        if starts and not ghost:
            clause = not bare.startswith("ghost use")
            ghost = bare.startswith("ghost use")
        elif clause and (bare == "{" or re.match(r"(pub |fn |let |where\b|const |struct |enum |impl |#\[|\})", bare)):
            clause = False
        if (ghost or clause) and not bare.startswith("//"):
            line = turned(line, new, False)
        if ghost and bare.endswith(";"):
            ghost = False
        out.append(line)
    return "\n".join(out)


def main():
    files = texts()
    crates = {path.split("/")[1] for path in files}
    new = table(files, crates)
    for path, text in files.items():
        if path.endswith(".rt"):
            fresh = in_source(text, new)
        else:
            away = lent(text, crates)
            fresh = turned(text, {old: it for old, it in new.items() if old not in away}, True)
        if fresh != text:
            with open(path, "w", encoding="utf-8") as file:
                file.write(fresh)
    print(f"respell: {len(new)} names")


if __name__ == "__main__":
    sys.exit(main())
