#!/usr/bin/env python3
"""Spells the names of this repository's definitions and lemmas as today's Rattle does: words in snake case, types and
modules as they are. Run once at the top of the repository, after the kit's port.py.

usage: tools/snake_names.py            rewrites specs/ and proofs/, the clauses of src/ and the must-fail edits
       tools/snake_names.py --map      prints what is renamed, a line each

A name in camel case that begins with a small letter is one of ours wherever it stands, since the kit has none left. A
name with a dash is renamed where this repository declares it or brings it in from itself: the kit's lemmas and the
names of goals and steps keep their dashes. Functions, types, strings, inputs and outputs keep their names.
"""

import os
import re
import sys

WORD = re.compile(r"[A-Za-z0-9_'\u0370-\u03ff\u2070-\u209f\u2100-\u214f\u2190-\u22ff-]+")
CAMEL = re.compile(r"[a-z][A-Za-z0-9_']*[A-Z][A-Za-z0-9_'-]*|[a-z][a-z0-9_']*-[A-Za-z0-9_'-]*[A-Z][A-Za-z0-9_'-]*")
USE = re.compile(r"use ([A-Za-z0-9_.+\u00b7'-]+)\.\{([^}]*)\}")
OURS = None
# Names that say another thing than their words, by hand.
BY_HAND = {"getD-upFrom": "get_or_up_from"}


def texts(root, endings):
    for folder, dirs, files in os.walk(os.path.join(root, "crates")):
        dirs[:] = sorted(d for d in dirs if d != "out")
        for f in sorted(files):
            if f.endswith(endings):
                yield os.path.join(folder, f)


def snake(name):
    if name in BY_HAND:
        return BY_HAND[name]
    if re.match(r"[A-Z][a-z]", name):
        return "".join(it[0].upper() + it[1:] for it in name.split("-"))
    name = re.sub(r"([a-z0-9])([A-Z])", r"\1_\2", name)
    name = re.sub(r"([A-Z])([A-Z][a-z])", r"\1_\2", name)
    return re.sub(r"(?<=[A-Za-z0-9'])-(?=[A-Za-z0-9'])", "_", name).lower()


def code_of(line):
    """A line of antt without its comment, and the comment."""
    m = re.match(r"^(\s*)--(\s|$)", line)
    if m:
        return "", line
    i = line.find(" -- ")
    return (line, "") if i < 0 else (line[:i], line[i:])


def own_path(path):
    m = re.match(r"Rattle\.(\w+)\.(specs|proofs)\b(.*)", path)
    if not m or m.group(1) not in OURS:
        return False
    last = path.split(".")[-1]
    return last not in ("Statement", "Tie", "Goals", "Given", "Code") and ".declared." not in path and ".contracts." not in path


DECLARED = re.compile(r"^\s*(?:(?:pub|abbrev|unfoldable|private|ruleset) )*([^\s(){}:,;=.]+)(?: [({][^:]*)?\s*:(?:\s|$)")
BOUND = re.compile(r"[({]((?:[^\s(){}:;,=]+ )+):")
GOAL = re.compile(r"^\s*(?:(?:pub|abbrev|unfoldable) )*[^\s:]+\s*:\s*(?:tie\.(?:Need-|invariant-|decreases-)|goal\.)")


def declared(path, text):
    """The names with dashes that a file declares, goals aside."""
    found = set()
    whole = [code_of(it)[0] for it in text.split("\n")]
    for line in whole:
        m = DECLARED.match(line)
        if m and not GOAL.search(line):
            found.add(m.group(1))
        for b in BOUND.findall(line):
            found.update(b.split())
    return {it for it in found if "-" in it.strip("-")}


def brought(text):
    """What a file's `use` lines bring in: names from this repository, and from elsewhere."""
    own, other = set(), set()
    for path, names in USE.findall(re.sub(r"\n\s+", " ", text)):
        for it in names.split(","):
            for w in WORD.findall(it):
                (own if own_path(path) else other).add(w)
    return own, other


def goals(text):
    """The goals that a file answers: names of Rattle's, but for the proof's own."""
    return {m.group(1) for m in (DECLARED.match(it) for it in text.split("\n") if GOAL.search(it)) if m}


class Turner:
    def __init__(self, root):
        global OURS
        OURS = set(os.listdir(os.path.join(root, "crates")))
        self.root = root
        self.renamed = {}
        self.dashed = set()
        self.taken = set()
        self.taken_by_camel = set()
        self.fallen = set()
        self.functions = set()
        for path in texts(root, (".rt",)):
            with open(path, encoding="utf-8") as f:
                self.functions |= set(re.findall(r"\bfn (\w+)", f.read()))
        self.plain = {}
        for path in texts(root, (".antt",)):
            with open(path, encoding="utf-8") as f:
                text = f.read()
            self.dashed |= declared(path, text)
            self.taken |= brought(text)[1]
            for line in text.split("\n"):
                words = WORD.findall(code_of(line)[0])
                self.taken_by_camel |= {snake(w) for w in words if CAMEL.fullmatch(w) and "-" not in w}
        self.taken |= self.taken_by_camel

    def turn_word(self, word, before, local, other):
        if word in other:
            return word
        if CAMEL.fullmatch(word) and "-" not in word:
            return snake(word)
        if "-" in word and word in local:
            # A lemma that would have the name of a definition says that it is one.
            new = snake(word)
            if before == "." and word.replace("-", "_") in self.functions:
                return word.replace("-", "_")
            return new + "_lem" if new in self.taken else new
        if before != "." and word in self.fallen:
            return word + "_lem"
        return word

    def turn_code(self, code, local, other):
        out, last = [], 0
        quoted = [it.span() for it in re.finditer(r'"(?:[^"\\]|\\.)*"', code)]
        for m in WORD.finditer(code):
            if any(a <= m.start() < b for a, b in quoted):
                continue
            w = m.group(0)
            before = code[m.start() - 1] if m.start() else ""
            new = self.turn_word(w, before, local, other)
            if new != w:
                self.renamed[w] = new
            out.append(code[last:m.start()] + new)
            last = m.end()
        return "".join(out) + code[last:]

    def turn_prose(self, prose):
        """In a comment a name in camel case, and one with a dash in backticks."""
        def word(m):
            w = m.group(0)
            if w in self.plain:
                return self.plain[w]
            return w
        prose = re.sub(r"`[^`\n]*`|[A-Za-z]+/[\w.'-]+|[A-Z]\w+\.[\w'-]+", lambda m: re.sub(WORD, word, m.group(0)), prose)
        return re.sub(r"(?<![\w./-])[a-z]+[A-Z]\w*(?![\w.-])", word, prose)

    def antt(self, text, path):
        own, other = brought(text)
        local = (declared(path, text) | own | {it for it in self.dashed}) - goals(text)
        other = other - own
        # A name that the kit's scripts gave to a lemma of ours, and that a definition here now has.
        self.fallen = {it for it in self.lemmas if it in own or it in self.names(text)}
        lines = []
        for line in text.split("\n"):
            code, prose = code_of(line)
            lines.append(self.turn_code(code, local, other) + ("\x00" + prose if prose else ""))
        return "\n".join(lines)

    def rt(self, text):
        """Clauses and `ghost use` lines alone."""
        self.fallen = set()
        out, depth, inside = [], 0, False
        for line in text.split("\n"):
            bare = line.lstrip()
            if bare.startswith("//"):
                out.append("\x00" + line)
                continue
            if bare.startswith("ghost use "):
                inside, depth = True, 0
                start = line
            elif re.match(r"(requires|ensures|ghost|invariant)\b", bare) and not inside:
                inside, depth = True, 0
            if inside:
                depth += line.count("{") - line.count("}")
                out.append(self.turn_code(line, self.dashed, set()))
                if depth <= 0 and ("}" in line or ";" in line):
                    inside = False
            else:
                out.append(line)
        return "\n".join(out)

    def names(self, text):
        return {m.group(1) for m in (DECLARED.match(code_of(it)[0]) for it in text.split("\n")) if m}

    def finish(self, text):
        return re.sub("\x00([^\n]*)", lambda m: self.turn_prose(m.group(1)), text)


def main():
    root = os.getcwd()
    t = Turner(root)
    # Lemmas that are in snake case already, and whose name a definition takes.
    t.lemmas, t.own = set(), set()
    for path in texts(root, (".antt",)):
        with open(path, encoding="utf-8") as f:
            names = t.names("\n".join(it for it in f if not it.startswith(" ")))
        t.own |= {it for it in names if not CAMEL.fullmatch(it)}
        if "/proofs/" in path:
            t.lemmas |= {it for it in names if "_" in it and it in t.taken_by_camel}
    t.taken |= t.own
    made = {}
    for path in texts(root, (".antt", ".rt")):
        with open(path, encoding="utf-8") as f:
            text = f.read()
        made[path] = (text, t.antt(text, path) if path.endswith(".antt") else t.rt(text))
    t.plain = dict(t.renamed)
    if "--map" in sys.argv:
        for old in sorted(t.renamed):
            print(old, t.renamed[old], sep="\t")
        return
    for path, (old, new) in made.items():
        new = t.finish(new)
        if new != old:
            with open(path, "w", encoding="utf-8") as f:
                f.write(new)
    print(f"snake_names: {len(t.renamed)} names")


if __name__ == "__main__":
    main()
