#!/usr/bin/env python3
"""Counts the places that docs/DESIGN-PASS.md speaks of, point by point, in crates/*/src and crates/*/proofs.

    tools/places.py          the counts
    tools/places.py POINT    the places of one point: enums, flags, sentinels, twins, loops, conversions, facts,
                             parameters, buffers, switches, answers, imports
"""
import re
import sys
from collections import Counter, defaultdict
from pathlib import Path

ROOT = Path(__file__).resolve().parent.parent
SOURCES = sorted(p for p in ROOT.glob("crates/*/src/**/*.rt") if p.name != "table.rt")
PROOFS = sorted(ROOT.glob("crates/*/proofs/**/*.antt"))


def crate_of(path):
    return path.relative_to(ROOT).parts[1]


def bare(path):
    return re.sub(r"//[^\n]*", "", path.read_text(encoding="utf8"))


def closing(text, start, opened, closed):
    depth = 1
    while depth:
        depth += {opened: 1, closed: -1}.get(text[start], 0)
        start += 1
    return start


def split(arguments):
    parts, depth, here = [], 0, ""
    for letter in arguments:
        depth += {"(": 1, "[": 1, "<": 1, ")": -1, "]": -1, ">": -1}.get(letter, 0)
        if letter == "," and depth == 0:
            parts.append(here)
            here = ""
        else:
            here += letter
    return [part.strip() for part in parts + [here] if part.strip()]


def functions():
    """Each function: crate, name, parameters, result, clauses, body."""
    for path in SOURCES:
        text = bare(path)
        for found in re.finditer(r"\bfn (\w+)(?:<[^(]*>)?\(", text):
            end = closing(text, found.end(), "(", ")")
            parameters = split(text[found.end():end - 1])
            clauses_end = text.find("\n{", end)
            head = re.match(r"(?: -> ([^{]+?))?\s*\{\n", text[end:])
            if head:
                start = end + head.end()
                clauses = ""
            elif clauses_end >= 0:
                start = clauses_end + 2
                clauses = text[end:clauses_end]
            else:
                continue
            result = re.match(r" -> ([^\n{]+)", text[end:])
            body = text[start:closing(text, start, "{", "}") - 1]
            yield crate_of(path), found[1], parameters, (result[1].strip() if result else ""), clauses, body


def enums():
    for path in SOURCES:
        for found in re.finditer(r"^(?:pub )?enum (\w+)", bare(path), re.M):
            yield f"{crate_of(path)}::{found[1]}"


def flags():
    """A bool beside what is written, or a bool that says which sort a call is of."""
    for crate, name, parameters, result, _, _ in functions():
        if result == "bool" and any("&mut" in p for p in parameters):
            yield f"{crate}::{name} answers a flag beside what it writes"
        for p in parameters:
            if p.endswith(": bool"):
                yield f"{crate}::{name} takes {p}"


def sentinels():
    """A search that answers a number where it finds nothing."""
    for crate, name, _, result, _, body in functions():
        if re.match(r"(find|first)_", name) and not result.startswith(("Option", "Result", "bool")) and result:
            yield f"{crate}::{name} -> {result}"


def loops():
    for path in SOURCES:
        for number, line in enumerate(path.read_text(encoding="utf8").split("\n"), 1):
            if re.search(r"^\s*(while|loop)\b", line):
                yield f"{path.relative_to(ROOT)}:{number}: {line.strip()}"


def shape(crate, parameters, result, body):
    text = "(" + ",".join(parameters) + ")" + result + body
    names = {}

    def name(found):
        word = found[0]
        if word in KEPT:
            return word
        return names.setdefault(word, f"x{len(names)}")

    text = re.sub(r"[A-Za-z_]\w*", name, re.sub(r'b?"[^"]*"|b?\'[^\']*\'|\b\d+(?:u8|u32|u64|usize|i64)?\b', "0", text))
    return re.sub(r"\s+", "", text)


KEPT = set("let mut if else while for in return match as fn true false usize bool break".split())


def twins():
    """Functions of one shape: their names, types and numbers aside."""
    groups = defaultdict(list)
    for crate, name, parameters, result, _, body in functions():
        if len(body.strip().split("\n")) >= 2:
            groups[shape(crate, parameters, result, body)].append(f"{crate}::{name}")
    for group in groups.values():
        if len(group) > 1:
            yield ", ".join(group)


def conversions():
    """Functions whose body is one expression of casts, or a choice of the smaller or the larger."""
    for crate, name, parameters, result, _, body in functions():
        line = body.strip()
        if "\n" not in line and re.search(r"\bas (u|i)\d+|\bas usize", line) and not re.search(r"\w+::\w+\(", line):
            yield f"{crate}::{name}: {line}"
        elif re.fullmatch(r"if (\w+) <=? (\w+) \{ (\1|\2) \} else \{ (\1|\2) \}", line):
            yield f"{crate}::{name}: {line}"
        elif result in ("u64", "SheetRead", "SheetWritten", "Places", "Kind") and "match" in line and "=>" in line:
            yield f"{crate}::{name}: a match from one type to another"


def facts():
    """A definition that stands in what three or more functions of a crate ask for."""
    count = defaultdict(Counter)
    for crate, _, _, _, clauses, _ in functions():
        asked = re.sub(r"^.*?(?=requires|ensures|$)", "", clauses, count=1, flags=re.S).split("ensures")[0]
        for word in set(re.findall(r"\b[A-Z]\w+", asked)):
            count[crate][word] += 1
    for crate in count:
        for word, n in count[crate].most_common():
            if n >= 3:
                yield f"{crate}: {word} in {n} functions"


def parameters():
    """Functions of eight or more parameters; and parameters that go together in five or more functions of a crate."""
    together = defaultdict(Counter)
    for crate, name, parameters, _, _, _ in functions():
        if len(parameters) >= 8:
            yield f"{crate}::{name} has {len(parameters)} parameters"
        for a, b, c in zip(parameters, parameters[1:], parameters[2:]):
            together[crate][f"{a}, {b}, {c}"] += 1
    for crate in together:
        for words, n in together[crate].most_common():
            if n >= 5:
                yield f"{crate}: ({words}) in {n} functions"


def buffers():
    """A slice with a place in it and a number of words beside it; two slices that go in step."""
    for crate, name, parameters, _, _, _ in functions():
        kinds = [p.split(":")[1].strip() for p in parameters if ":" in p]
        for k in range(len(kinds) - 2):
            if re.match(r"&(mut )?\[", kinds[k]) and kinds[k + 1:k + 3] == ["usize", "usize"]:
                yield f"{crate}::{name}: {', '.join(parameters[k:k + 3])}"
                break
        if sum(k == "&mut [u64]" for k in kinds) == 2 or sum(k == "&[u64]" for k in kinds) == 2:
            yield f"{crate}::{name}: two slices in step"


def switches():
    for crate, name, _, _, _, body in functions():
        if re.search(r"match (method|solver)\b|if in_words\b", body):
            yield f"{crate}::{name}"


def answers():
    """Answers that are one call of a tactic that the check tries by itself."""
    for path in PROOFS:
        for found in re.finditer(r"^(\S+) c =\s+(omega arith|search rules|refl|grind arith|grind \(arith, common_steps\))\n",
                                 path.read_text(encoding="utf8"), re.M):
            yield f"{path.relative_to(ROOT)}: {found[1]}"


def imports():
    """Files of proofs and specs that take words from below std."""
    for path in PROOFS + sorted(ROOT.glob("crates/*/specs/**/*.antt")):
        if re.search(r"^use (mathlib|Prim|native|lib|borrow)\.", path.read_text(encoding="utf8"), re.M):
            yield f"{path.relative_to(ROOT)}"


POINTS = [enums, flags, sentinels, twins, loops, conversions, facts, parameters, buffers, switches, answers, imports]

if __name__ == "__main__":
    wanted = sys.argv[1:]
    for point in POINTS:
        places = list(point())
        if point.__name__ in wanted:
            print("\n".join(places))
        elif not wanted:
            print(f"{len(places):5} {point.__name__}")
