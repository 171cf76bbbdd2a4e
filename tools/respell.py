#!/usr/bin/env python3
"""Brings the repository's own names in antt to one spelling, snake case (`sideAt` and `half-up` become `side_at` and `half_up`), where port.py left them,
and moves the files of laws that must-fail edits of definitions need to see below proofs/.

usage: python3 tools/respell.py FOLDER      run once, right after port.py, at the top of the repository FOLDER

Types, facts and modules, which begin with a capital, keep their names, and so do functions of src/, names of the library that a file imports, and what Rattle makes
of the code. A law that would then have the name of a definition used beside it gets _lem. Edits and pages are turned along: in an edit the lines old: and new:,
in README and docs/ what stands in backticks.
"""

import glob
import os
import re
import sys

TOP = sys.argv[1] if len(sys.argv) > 1 else "."

# Laws that would fall together with a definition in one file.
LEM = {n: n.replace("-", "_") + "_lem" for n in ["applied-from", "clean-to", "has-at", "high-from", "low-from", "in-range", "kit-taken", "mark-units", "must-stop", "or-else", "plain-call", "round-place", "signed-byte", "state-words", "significand-of", "with-sign", "is-nan"]}
# The same where the law was in snake case already: the file that has it, and those that import it from there.
LEM_AT = {"calls/CallLaws": "by_row", "suspects/SuspectLaws": "in_window", "factor/PartsLaws": "parts_from", "sweep/StepLaws": "ahead_in", "reading/SignLaws": "zero_bits"}

# Crates with edits of definitions: the files of laws there stand in proofs/, so that such an edit is read, and refused for what no longer holds.
MOVED = ["calls", "exports", "factor", "floats", "product", "reading", "rounding", "suspects", "sweep", "tally"]
# Files that say what is meant, though their first line doesn't call them definitions.
MEANING = {"suspects/Next"}

WORD = r"[^\W\d][\w'₀-₉·-]*"
TOKEN = re.compile(r"[\w'₀-₉·-]+")
SIGNATURE = re.compile(r"^\s*(?:(?:abbrev|unfoldable|pub|pattern) )*(" + WORD + r") :\s")


def snake(name):
    if name in LEM:
        return LEM[name]
    name = name.replace("-", "_")
    return re.sub(r"([a-z0-9])([A-Z]+)", lambda m: m[1] + "_" + m[2].lower(), name) if name[0].islower() else name


def files(pattern):
    return sorted(glob.glob(os.path.join(TOP, pattern), recursive=True))


def read(path):
    with open(path, encoding="utf-8") as f:
        return f.read()


def write(path, text):
    with open(path, "w", encoding="utf-8") as f:
        f.write(text)


def laws_and_definitions():
    return files("crates/*/specs/**/*.antt") + files("crates/*/proofs/*.antt")


def own_path(path):
    parts = path.split(".")
    return parts[0] == "Rattle" and len(parts) > 1 and os.path.isdir(os.path.join(TOP, "crates", parts[1]))


def imports(text):
    """The imports of a file: path and names."""
    return [(m[1], m[2]) for m in re.finditer(r"^(?:ghost )?(?:pub )?use ([\w.'-]+)\.\{([^}]*)\}", text, re.M)]


def from_elsewhere(text):
    out = set()
    for path, names in imports(text):
        if not own_path(path):
            out |= set(TOKEN.findall(names))
    return out


def names_to_turn():
    out = {"notClean", "significandConditions"}
    for f in laws_and_definitions():
        for line in read(f).split("\n"):
            m = SIGNATURE.match(line)
            if m and ("-" in m[1] or m[1][0].islower() and re.search("[a-z0-9][A-Z]", m[1])):
                out.add(m[1])
    # variables and local names with a dash or a capital
    for f in laws_and_definitions():
        t = read(f)
        elsewhere = from_elsewhere(t)
        for line in t.split("\n"):
            if line.lstrip().startswith("--") or re.match(r"(pub )?use ", line):
                continue
            for w in TOKEN.findall(re.sub(r'"[^"]*"', "", line.split(" -- ")[0])):
                if w not in elsewhere and w[0].islower() and re.fullmatch(r"[a-z][\w'-]*", w) and ("-" in w.strip("-") or re.search("[a-z0-9][A-Z]", w)) and not w.endswith("-"):
                    out.add(w)
    return out


def turned(text, names):
    return TOKEN.sub(lambda m: snake(m[0]) if m[0] in names else m[0], text)


def every(text):
    """As port.py may have turned a name that an edit still has in its old form, each word with a dash or a capital is turned."""
    return TOKEN.sub(lambda m: snake(m[0]) if m[0][0].islower() and not m[0].endswith("-") else m[0], text)


def in_backticks(text, names):
    return re.sub(r"`[^`\n]+`", lambda m: turned(m[0], names), text)


def turned_lines(text, names, comment):
    """Code is turned whole, comments only where a name stands in backticks."""
    out = []
    for line in text.split("\n"):
        at = line.find(comment) if comment == "//" or line.lstrip().startswith(comment) else -1
        if at < 0:
            out.append(turned(line, names))
        else:
            out.append(turned(line[:at], names) + in_backticks(line[at:], names))
    return "\n".join(out)


def lem_at(path, text, names):
    for file, name in LEM_AT.items():
        crate, module = file.split("/")
        here = path.endswith(f"crates/{crate}/specs/{module}.antt")
        brings = any(p.startswith(f"Rattle.{crate}.") and p.endswith("." + module) and name in TOKEN.findall(n) for p, n in imports(text))
        if here or brings:
            text = re.sub(r"(?<![\w'.-])" + name + r"(?![\w'-])(?!\.\w)", name + "_lem", text)
    return text


def respell():
    names = names_to_turn()
    for f in laws_and_definitions() + [f for f in files("crates/*/proofs/**/*.antt") if f not in set(files("crates/*/proofs/*.antt"))]:
        t = read(f)
        mine = names - from_elsewhere(t)
        t = lem_at(f, t, mine)
        write(f, turned_lines(t, mine, "--"))
    for f in files("crates/*/src/*.rt"):
        t = read(f)
        out = []
        clause = False
        for line in t.split("\n"):
            code = line.split("//")[0]
            clause = bool(re.match(r"\s*(pub )?(ghost use|requires|ensures|ghost|abbrev)\b", code)) or clause and not re.match(r"\{?$", code.strip())
            out.append(turned_lines(line, names, "//") if clause else in_backticks(line, names) if "//" in line else line)
        write(f, "\n".join(out))
    for f in files("crates/*/must-fail/*.edit"):
        out = []
        inside = ""
        for line in read(f).split("\n"):
            if line.startswith("file: "):
                inside = line[6:]
            if line.startswith(("old: ", "new: ")):
                line = line[:5] + every(tight(line[5:])) if not inside.startswith("src/") or re.search("ensures|requires|λ|⌜", line) else line
            out.append(line)
        write(f, "\n".join(out))
    for f in files("README.md") + files("docs/**/*.md"):
        write(f, in_backticks(read(f), names))


def tight(text):
    """A projection is written tight, as port.py has it: `s .next` becomes `s.next`, and `(s .next)` as an argument `s.next`."""
    for _ in range(3):
        text = re.sub(r"(?<=[\w')]) \.(?=\w)", ".", text)
        text = re.sub(r"(?<!\w)\(([\w']+(?:\.[\w']+)+)\)(?!\.)", r"\1", text)
    return text


def is_laws(path):
    crate, module = path.split("crates/")[1].split("/specs/")
    return module != "Lib.antt" and f"{crate}/{module[:-5]}" not in MEANING and "definitions" not in read(path).split("\n", 1)[0].lower()


def move_laws():
    moved = {}
    for crate in MOVED:
        for f in files(f"crates/{crate}/specs/*.antt"):
            if is_laws(f):
                moved.setdefault(crate, []).append(os.path.basename(f)[:-5])
    for crate, modules in moved.items():
        folder = os.path.join(TOP, "crates", crate)
        os.makedirs(f"{folder}/proofs", exist_ok=True)
        lib = f"{folder}/proofs/Lib.antt"
        text = read(lib) if os.path.exists(lib) else "-- The laws, in the order in which they build on each other.\n"
        specs = read(f"{folder}/specs/Lib.antt").split("\n")
        keep = []
        for line in specs:
            m = re.match(r"pub mod (\w+)$", line)
            if m and m[1] in modules:
                text = text.rstrip("\n") + "\n" + line + "\n"
                os.rename(f"{folder}/specs/{m[1]}.antt", f"{folder}/proofs/{m[1]}.antt")
            else:
                keep.append(line)
        write(lib, text)
        write(f"{folder}/specs/Lib.antt", "\n".join(keep))
    pattern = re.compile(r"Rattle\.(\w+)\.specs\.(\w+)")
    for f in files("crates/*/**/*.antt") + files("crates/*/src/*.rt"):
        t = read(f)
        new = pattern.sub(lambda m: f"Rattle.{m[1]}.proofs.{m[2]}" if m[2] in moved.get(m[1], []) else m[0], t)
        if new != t:
            write(f, new)
    for f in files("crates/*/must-fail/*.edit"):
        crate = f.split("crates/")[1].split("/")[0]
        t = read(f)
        new = re.sub(r"^file: specs/(\w+)\.antt$", lambda m: f"file: proofs/{m[1]}.antt" if m[1] in moved.get(crate, []) else m[0], t, flags=re.M)
        if new != t:
            write(f, new)


respell()
move_laws()
