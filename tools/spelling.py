#!/usr/bin/env python3
"""Brings this repository's own names to the spelling of today's Rattle, after the kit's port.py has run. Run once, at the top of the repository.

usage: python3 tools/spelling.py [--dry]

Words are in snake case, types and modules in camel case. A dash stays in a lemma's name where it joins the names of two definitions; else it becomes
an underscore. The names of Blowfish's description (P, S1 to S4, F) stay as they are printed there. Functions of src/, exported C names, strings, inputs
and outputs keep their names. The crate `bytes` has the name of a library of the kit and becomes `octets`; the two static libraries say so in crates.txt.
It tells where two names fall together, or a file has a name already that it gains; --dry tells it and changes nothing.
"""

import glob
import os
import re
import sys

TOKEN = re.compile(r"(?<![\w])[A-Za-z]\w*(?:['-]+\w+)*'*")
DECLARED = re.compile(r"^(?:  )?(?:(?:abbrev|unfoldable|pub|record|data|infix\w* \d+) )*([A-Za-z][^\s:(){}]*) (?=[:(])")
# definitions of the library that names of lemmas join to others
LIBRARY = set("length take drop set get_or slice_index replicate map sum reverse list_all div mod digits suc zero leb eqb not cond at".split())
# a definition of one crate that is spelled as a type and gives a list
BY_HAND = {"blocks": {"Start": "start_of_four"}}
KEPT = set("P S1 S2 S3 S4 F F-word T_true Start".split())
# what port.py turns in crates/ and not in must-fail edits
TURNED = {"getD": "get_or"}


def snake(word):
    """lowerCamel to lower_camel, in a part that begins with a small letter; what has a capital after an underscore is a type's name."""
    parts = word.split("_")
    return "_".join(re.sub(r"(?<=[a-z0-9])([A-Z])", lambda m: "_" + m.group(1).lower(), p) if p[:1].islower() else p for p in parts)


def read(path):
    with open(path, encoding="utf-8") as f:
        return f.read()


def antt_files(root):
    for folder in ("specs", "proofs"):
        yield from sorted(glob.glob(os.path.join(root, "crates", "*", folder, "**", "*.antt"), recursive=True))


def of_function(path):
    """Whether the file is in a function's folder, whose names come from the code."""
    return os.path.basename(path) == "Proof.antt"


def declared(root):
    """The lemmas, the definitions and the fields (with antt's constructors) that specs/ and proofs/ declare."""
    lemmas, specs, fields = set(), set(), set()
    for path in antt_files(root):
        if of_function(path):
            continue
        inside = False
        for line in read(path).splitlines():
            if line and not line.startswith(" "):
                inside = bool(re.match(r"(pub )?(record|data) ", line))
            m = DECLARED.match(line)
            if m and m.group(1) not in ("use", "module", "unfolding", "where", "let", "in"):
                (fields if line.startswith("  ") and inside else specs if "/specs/" in path else lemmas).add(m.group(1))
    return lemmas - specs, specs, fields


def new_name(name, joined):
    if name in KEPT:
        return name
    parts = [snake(p) for p in name.split("-")]
    out = parts[0]
    for before, after in zip(parts, parts[1:]):
        out += ("-" if before in joined and after in joined else "_") + after
    return out


class Names:
    def __init__(self, root):
        lemmas, specs, fields = declared(root)
        joined = {snake(n) for n in specs} | LIBRARY
        self.words = {n: new_name(n, joined) for n in specs}
        self.fields = {n: new_name(n, set()) for n in fields}
        defined = {**self.fields, **self.words}
        taken = set(defined.values())
        turned_to = {new for old, new in defined.items() if new != old}
        for n in sorted(lemmas, key=lambda n: (new_name(n, joined) != n, n)):
            new = new_name(n, joined)
            # a lemma that would come by the name of a definition or of another lemma
            self.words[n] = new + "_lem" if new in (taken if new != n else turned_to) else new
            taken.add(self.words[n])
        for n, new in self.fields.items():
            self.words.setdefault(n, new)

    def together(self):
        by_new = {}
        for old, new in self.words.items():
            by_new.setdefault(new, set()).add(old)
        return {new: olds for new, olds in by_new.items() if len(olds) > 1}


def turned(text, names, dashes=True, foreign=frozenset()):
    def one(m):
        t = m.group(0)
        if t in foreign:
            return t
        known = names.fields if m.start() and text[m.start() - 1] == "." else names.words
        if t in known and ("-" not in t or dashes):
            return known[t]
        if "-" in t:
            return "-".join(snake(p) for p in t.split("-"))
        return snake(t)

    return TOKEN.sub(one, text)


def foreign_in(text):
    """What a file takes from the kit's modules keeps its name."""
    found = set()
    for m in re.finditer(r"(?m)^use ([\w.]+)\.\{([^}]*)\}", text):
        if not m.group(1).startswith("Rattle.") or m.group(1).startswith("Rattle.std."):
            found |= {n.strip() for n in m.group(2).split(",")}
    return found


def turned_antt(text, names):
    out = []
    foreign = foreign_in(text)
    inside = False
    for line in text.split("\n"):
        if line and not line.startswith(" "):
            inside = bool(re.match(r"(pub )?(record|data) ", line))
        at = line.find("--")
        field = re.match(r"(  (?:pub )?)([A-Za-z][^\s:(){}]*)(?= :)", line) if inside else None
        if at >= 0 and (at == 0 or line[at - 1] == " "):
            out.append(turned(line[:at], names, foreign=foreign) + turned(line[at:], names, dashes=False))
        elif line.startswith("use "):
            # a module's path keeps its spelling
            path, brace, rest = line.partition("{")
            out.append(path + brace + turned(rest, names, foreign=foreign) if brace else line)
        elif field:
            out.append(field.group(1) + names.fields.get(field.group(2), field.group(2)) + turned(line[field.end() :], names, foreign=foreign))
        else:
            out.append(turned(line, names, foreign=foreign))
    return "\n".join(out)


def turned_code(text, names):
    """A source file: strings, characters and the code's own names stay; these are in snake case."""
    own = frozenset(re.findall(r"\bfn (\w+)", text))
    parts = re.split(r"(b?\"(?:[^\"\\\n]|\\.)*\"|b?'(?:[^'\\\n]|\\.)')", text)
    return "".join(p if i % 2 else turned(p, names, dashes=False, foreign=own) for i, p in enumerate(parts))


def octets(text):
    text = re.sub(r"\bRattle\.bytes\.", "Rattle.octets.", text)
    return re.sub(r"(?<![\w:])bytes::(?=[a-z_A-Z])", "octets::", text)


def write(path, text, was, dry):
    """Writes what changed, and says whether it did."""
    if text != was and not dry:
        with open(path, "w", encoding="utf-8") as f:
            f.write(text)
    return text != was


def look(path, text, names, code):
    """Tells of names that a file gains and has already, and of a parameter that hides a word of its clauses."""
    before = set(TOKEN.findall(text))
    gained = {names.words.get(t, snake(t)) for t in before if names.words.get(t, snake(t)) != t}
    for t in sorted(gained & before):
        if not (code and t in {snake(x) for x in before if x != t} and re.search(r"fn " + t + r"\b", text)):
            print("look: in this file already:", path, t)
    for m in re.finditer(r"\bfn (\w+)[^{;]*?\(([^)]*)\)", text if code else ""):
        for p in re.findall(r"(\w+):", m.group(2)):
            if p in gained:
                print("look: a parameter hides a word:", path, m.group(1), p)


def turn_sources(root, names, dry):
    changed = 0
    for path in list(antt_files(root)) + sorted(glob.glob(os.path.join(root, "crates", "*", "src", "**", "*.rt"), recursive=True)):
        text = was = read(path)
        code = path.endswith(".rt")
        inner = os.path.relpath(path, root)
        for old, new in BY_HAND.get(inner.split(os.sep)[1], {}).items():
            text = re.sub(r"(?<![\w'-])" + old + r"(?![\w'-])", new, text)
        look(inner, text, names, code)
        changed += write(path, octets(turned_code(text, names) if code else turned_antt(text, names)), was, dry)
    return changed


def turn_edits(root, names, dry):
    changed = 0
    for path in sorted(glob.glob(os.path.join(root, "crates", "*", "must-fail", "*.edit"))):
        text = was = read(path)
        for old, new in TURNED.items():
            text = re.sub(r"\b" + old + r"\b", new, text)
        # the paths of the files to be edited stay
        parts = re.split(r"(?m)^(file: .*|old: |new: )", text)
        code = "file: src" in text
        changed += write(path, octets("".join(p if i % 2 else turned_code(p, names) if code else turned(p, names) for i, p in enumerate(parts))), was, dry)
    return changed


def turn_papers(root, names, dry):
    """What stands in the pages between backticks."""
    changed = 0
    for path in ["README.md"] + sorted(glob.glob(os.path.join(root, "docs", "*.md"))):
        was = read(path)
        text = re.sub(r"`[^`\n]+`", lambda m: turned(m.group(0), names, dashes=m.group(0).strip("`") in names.words), was)
        changed += write(path, text, was, dry)
    return changed


def turn_crates():
    """The crate's new name, and the two static libraries."""
    if os.path.isdir("crates/bytes"):
        os.rename("crates/bytes", "crates/octets")
    out = []
    for line in read("crates.txt").splitlines():
        if not line.startswith("#") and ":" in line:
            name, uses = line.split(":", 1)
            words = ["octets" if w == "bytes" else w for w in uses.split()]
            name = "octets" if name == "bytes" else name
            line = name + (" staticlib" if name in ("lambukir", "probe") else "") + ":" + "".join(" " + w for w in words)
        out.append(line)
    with open("crates.txt", "w") as f:
        f.write("\n".join(out) + "\n")


def main(argv):
    root = os.getcwd()
    dry = "--dry" in argv
    names = Names(root)
    for new, olds in sorted(names.together().items()):
        print("look: together:", new, "from", " ".join(sorted(olds)))
    changed = sum(turn(root, names, dry) for turn in (turn_sources, turn_edits, turn_papers))
    if not dry:
        turn_crates()
    print(f"spelling: {len(names.words)} names, {sum(o != n for o, n in names.words.items())} of them turned, {changed} files")
    return 0


if __name__ == "__main__":
    raise SystemExit(main(sys.argv[1:]))
