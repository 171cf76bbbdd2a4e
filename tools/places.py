#!/usr/bin/env python3
"""Lists the places in src/ where an older form may stand: places.py [TREE]. docs/DESIGN-PASS.md says what became of each."""
import collections
import glob
import os
import re
import sys

TREE = sys.argv[1] if len(sys.argv) > 1 else "."


def files():
    for path in sorted(glob.glob(os.path.join(TREE, "crates/*/src/*.rt"))):
        crate = path.split("/crates/")[1].split("/")[0] if "/crates/" in path else path.split("crates/")[1].split("/")[0]
        text = "\n".join("" if line.lstrip().startswith("//") else line for line in open(path).read().split("\n"))
        yield crate, text


def bodies(text, word):
    """Name and body of each item that begins with a word."""
    for found in re.finditer(r"\b%s (\w+)[^{;]*\{" % word, text):
        depth, at = 1, found.end()
        while depth:
            depth += {"{": 1, "}": -1}.get(text[at], 0)
            at += 1
        yield found.group(1), text[found.end():at - 1]


def functions(text):
    """Name, parameters, clauses and body of each function with a body."""
    for found in re.finditer(r"^[ \t]*(?:pub |extern \"C\" |const )*fn (\w+)(?:<[^>]*>)?\(([^)]*)\)([^{;]*?)((?:\n\s*(?:requires|ensures)[^\n]*)*)\s*\{\n?", text, re.M):
        depth, at = 1, found.end()
        while depth:
            depth += {"{": 1, "}": -1}.get(text[at], 0)
            at += 1
        yield found.group(1), found.group(2), found.group(4), text[found.end():at - 1]


def enums():
    """1. Enums of the shape of Option or Result."""
    for crate, text in files():
        for name, body in bodies(text, "enum"):
            variants = re.findall(r"^    (\w+)(\([^)]*\))?,", body, re.M)
            bare = [v for v, load in variants if not load]
            if any(v in ("Refused", "Malformed", "Nowhere") for v, _ in variants) or (len(variants) == 2 and len(bare) == 1):
                yield f"{crate}::{name}"


def numbers():
    """1. Numbers for refusals and kinds."""
    for crate, text in files():
        for line in text.split("\n"):
            if re.search(r"Refused\((\d+|NOT_A_FRAME|TOO_SHORT|DAMAGED)\)|\bkind: u64|return (TOO_SHORT|DAMAGED)|put_(product|reading)\(\d|^\s*\w+::(Below|Equal|Above|Clean|NotClean|Unfinished) => \d|^\s*\d[\d |]* => |put_outcome\(\d|^const (NOT_A_FRAME|TOO_SHORT|DAMAGED)|\bnumber: u32|refusal: u32", line):
                yield f"{crate}: {line.strip()}"


def flags():
    """1. Flags with a value beside them."""
    for crate, text in files():
        for line in text.split("\n"):
            if re.match(r"\s*(pub )?(?!fn)\w+: bool,?$", line) or re.search(r"\((?:.*, )?\w+: bool[,)]", line):
                yield f"{crate}: {line.strip()}"


def twins():
    """2. Functions whose bodies, and structs whose fields, are alike but for names."""
    for kind in ("fn", "struct"):
        alike = collections.defaultdict(list)
        for crate, text in files():
            items = [(n, b) for n, _, _, b in functions(text)] if kind == "fn" else bodies(text, "struct")
            for name, body in items:
                if kind == "struct":
                    shape = " ".join("." if not re.search(r"Direction|bool", line) else line.split(":")[1].strip() for line in body.split("\n") if ":" in line)
                    if "Direction" not in shape:
                        continue
                else:
                    if crate == "exports_c" or len(body.strip().split("\n")) < 2:
                        continue
                    shape = re.sub(r"\b\d+\b", "0", re.sub(r"\b(?!let|if|else|while|return|match|mut|as|for|in|true|false)[a-zA-Z_]\w*\b", "x", body))
                    shape = re.sub(r"\s+", " ", shape)
                alike[shape].append(f"{crate}::{name}")
        for shape, names in alike.items():
            if len(names) > 1:
                yield kind + ": " + ", ".join(names)


def loops():
    """3. Loops by hand."""
    for crate, text in files():
        for name, _, _, body in functions(text):
            for line in body.split("\n"):
                if re.match(r"\s*(while|loop)\b", line):
                    yield f"{crate}::{name}: {line.strip()}"


def by_hand():
    """4. Equality, order, copying, conversion and printing by hand."""
    names = r"(below|same|same_\w+|is_alike|smaller|larger|from_word|to_word|widened|wide|signed_word|signed_half|unsigned_word|unsigned_half|magnitude|direction_number|copy_\w+|direction_at|stores|\w+_from|signed|put_factor|put_state|factor_from|state_of|kit_state_of)"
    for crate, text in files():
        for name, _, _, _ in functions(text):
            if re.fullmatch(names, name):
                yield f"{crate}::{name}"


def facts():
    """5. Facts that the contracts of three or more functions of a crate ask."""
    for crate, text in files():
        count = collections.Counter()
        for name, _, clauses, _ in functions(text):
            seen = set()
            for clause in re.findall(r"requires \w*\s*\{ (.*) \}", clauses):
                for fact in clause.split(" × "):
                    seen.add(re.sub(r"\b(self|p|f|n|s|o)\b", "_", fact.strip("() ")))
            count.update(seen)
        for fact, many in count.items():
            if many > 2:
                yield f"{crate}: {fact}: {many} functions"


def together():
    """5. Parameters that travel together, in three or more functions of a crate."""
    for crate, text in files():
        count = collections.Counter()
        for name, given, _, _ in functions(text):
            named = [re.sub(r"\s+", " ", g.strip()) for g in given.split(",") if ":" in g]
            for i, a in enumerate(named):
                for b in named[i + 1:]:
                    count[(a, b)] += 1
        for (a, b), many in count.items():
            if many > 2 and crate != "exports_c":
                yield f"{crate}: {a}, {b}: {many} functions"


def buffers():
    """6. Buffers with a length or a place beside them."""
    for crate, text in files():
        for line in text.split("\n"):
            if re.match(r"\s+pub \w+: \[.*; ", line) or re.search(r"(buf|out|tail|held|list): &mut \[\w+\], (at|used|count|free|n): usize|(line|input|list): &\[\w+\], (at|count): usize", line):
                yield f"{crate}: {line.strip()}"


def switches():
    """7. Switches on which step to run."""
    for crate, text in files():
        for name, _, _, body in functions(text):
            if re.search(r"Device::\w+ =>|if paired|if high\b|match kind", body):
                yield f"{crate}::{name}"


def proofs():
    """8. Lines of proofs of functions, by crate."""
    for crate in sorted(os.listdir(os.path.join(TREE, "crates"))):
        lines = sum(len(open(p).read().split("\n")) for p in glob.glob(os.path.join(TREE, f"crates/{crate}/proofs/*/**/*.antt"), recursive=True))
        if lines:
            yield f"{crate}: {lines}"


for part in (enums, numbers, flags, twins, loops, by_hand, facts, together, buffers, switches, proofs):
    places = list(part())
    print(f"## {part.__doc__} ({part.__name__}): {len(places)}")
    for place in places:
        print("  " + place)
