#!/usr/bin/env python3
"""Spells the repository's own definitions, lemmas and fields as today's Rattle does, after port.py has run.

usage: python3 tools/snake_names.py [--list | --rest]      at the top of the repository; --list prints the table and changes nothing;
                                                           --rest spells the names of tools/rest_names.txt, whose types begin on a
                                                           line of their own, so that the first run did not see them

A camelCase word becomes snake_case. In a lemma's name a dash stays where it joins the names of two definitions
(length-sum), and becomes an underscore before a plain word (sum_at). A field, a local name and a name of one word
with a capital in it have underscores alone. Functions of src/, exported names, types and modules keep their spelling.
It rewrites .antt and .rt files, edits of must-fail/ and the pages, whole words only, and is run once.
"""
import collections
import glob
import re
import sys

WORD = r"[^\s(){}.;,:@\"«»\[\]\\|`]+"
# operations of the library that lemma names are made of
OPERATIONS = set(
    "add sub mul mod div pow neg zero one suc le lt eq min max length append take drop set get_or map reverse sum "
    "replicate nil cons at res rem".split()
)


# names that would fall together with another one in use
CHOSEN = {
    "rightSide": "right_side_of",
    "sum-of-zeros": "sum_of_zeros",
    "product_at": "product_at_lem",
    "read_count": "read_count_lem",
}


def files():
    below = lambda *ends: [it for end in ends for it in sorted(glob.glob("crates/*/" + end, recursive=True)) if "/out/" not in it]
    logic = below("specs/**/*.antt", "proofs/**/*.antt")
    return logic, below("src/**/*.rt", "must-fail/*") + sorted(glob.glob("docs/*.md")) + ["README.md"]


def read(path):
    with open(path, encoding="utf-8") as it:
        return it.read()


def snake(word):
    return re.sub(r"(?<=[a-z0-9])([A-Z])", lambda it: "_" + it[1].lower(), word) if word[:1].islower() else word


def declared(logic):
    """Returns the kinds of each name that the files declare: definition, lemma, local (in a where block) or field."""
    kinds = collections.defaultdict(set)
    for path in logic:
        if path.endswith("/Proof.antt"):
            continue
        in_record = False
        for line in read(path).split("\n"):
            if re.match(r"\s*(pub )?record \S", line) and not re.search(r"=", line):
                in_record = True
                continue
            if not line.strip():
                in_record = False
            found = re.match(r"^(\s*)((?:unfoldable |abbrev )?(?:pub )?(?:abbrev |unfoldable )?)(%s(?: %s)*?) : " % (WORD, WORD), line)
            if not found or re.match(r"\s*(--|use |module |let )", line):
                continue
            for name in found[3].split():
                if in_record and found[1]:
                    kinds[name].add("field")
                elif "unfoldable" in found[2] or "abbrev" in found[2]:
                    kinds[name].add("definition")
                else:
                    kinds[name].add("local" if len(found[1]) >= 6 else "lemma")
    return kinds


def imported(paths):
    """Returns the names that are taken from a library that is not the repository's."""
    names = set()
    own = {it.split("/")[1] for it in glob.glob("crates/*/src")}
    for path in paths:
        for module, items in re.findall(r"(?m)^(?:pub )?(?:ghost )?use ([^\s{]+)\.\{([^}]*)\}", read(path)):
            of_ours = re.match(r"Rattle\.(\w+)\.", module)
            if not (of_ours and of_ours[1] in own):
                names |= {it.split(" as ")[0].strip() for it in items.split(",")}
    return names


def own_modules(text):
    """Returns the names by which a file calls modules of the repository."""
    own = "|".join(it.split("/")[1] for it in glob.glob("crates/*/src"))
    found = re.findall(r"(?m)^(?:pub )?use Rattle\.(?:%s)\.(?:specs|proofs)\.(\S+?)(?: as (\S+))?$" % own, text)
    return {alias or path.split(".")[-1] for path, alias in found if not re.search(r"\b(Tie|Lts|Reads)\b", path)}


def spelled(name, kinds, names):
    parts = [snake(it) for it in name.split("-")]
    if len(parts) == 1 or kinds & {"field", "local"}:
        return "_".join(parts)
    is_name = lambda words: any("_".join(words[at:]) in names for at in range(len(words)))
    begins = lambda words: any("_".join(words[:end]) in names for end in range(1, len(words) + 1))
    out = [parts[0]]
    for at in range(1, len(parts)):
        joined = is_name([it for it in parts[:at]]) and begins(parts[at:])
        out.append(("-" if joined else "_") + parts[at])
    return "".join(out)


def table(logic, others):
    kinds = declared(logic)
    names = OPERATIONS | {snake(it) for it, of in kinds.items() if "definition" in of and "-" not in it}
    foreign = imported(logic + others)
    renamed = {}
    definitions = {snake(it) for it, of in kinds.items() if "definition" in of}
    for name, of in kinds.items():
        new = CHOSEN.get(name) or spelled(name, of, names)
        if new in definitions and "definition" not in of and name not in CHOSEN and new != name:
            new += "_lem"
        if new != name and name not in foreign:
            renamed[name] = new
    # names that would fall together with another name in use: --list shows them, and CHOSEN settles them
    taken = set(kinds) | foreign
    for path in logic:
        taken |= set(re.findall(WORD, read(path)))
    clash = collections.defaultdict(list)
    for old, new in renamed.items():
        clash[new].append(old)
    fell = {new: olds for new, olds in clash.items() if len(olds) > 1 or new in taken}
    return renamed, kinds, fell


def respell_rest(paths):
    renamed = dict(it.split() for it in read("tools/rest_names.txt").splitlines())
    for path in paths:
        text = read(path)
        one = lambda it: it[0] if text[max(0, it.start() - 1) : it.start()] == "." else renamed.get(it[0], it[0])
        now = re.sub(WORD, one, text)
        if now != text:
            with open(path, "w", encoding="utf-8") as it:
                it.write(now)


def main():
    logic, others = files()
    if "--rest" in sys.argv:
        return respell_rest(logic + others)
    renamed, kinds, fell = table(logic, others)
    if "--list" in sys.argv:
        for old in sorted(renamed):
            print(old, renamed[old], ",".join(sorted(kinds[old])))
        for new, olds in sorted(fell.items()):
            print("FALLS", new, olds)
        return
    fields = {it for it, of in kinds.items() if "field" in of}
    known = set(kinds) | set(renamed.values())
    for path in logic + others:
        text = read(path)
        is_logic, is_source = path.endswith(".antt"), path.endswith(".rt")
        aliases = own_modules(text)

        def one(found):
            word, before = found[0], text[max(0, found.start() - 80) : found.start()]
            in_path = re.search(r"(?:Rattle|proofs|specs)[\w.+]*\.\Z", before)
            in_module = re.search(r"([^\s(){}.;,]+)\.\Z", before)
            if before.endswith(".") and not in_path and word not in fields and not (in_module and in_module[1] in aliases):
                return word
            if is_source and not re.search(r"-|[a-z][A-Z]", word):
                return word
            if word in renamed or is_logic:
                return renamed.get(word, word)
            # a name that port.py has respelled stands in edits and pages as it was
            plain = snake(word).replace("-", "_")
            return plain if re.search(r"[a-z]-[a-z]|[a-z][A-Z]", word) and word not in known and plain in known else word

        now = re.sub(WORD, one, text)
        if now != text:
            with open(path, "w", encoding="utf-8") as it:
                it.write(now)


main()
