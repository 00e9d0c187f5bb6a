#!/usr/bin/env python3
"""Brings the repository's own definitions and lemmas to snake case, once, after the kit's port.py: specs/, proofs/, and the clauses of src/.

usage: tools/respell.py        at the top of the repository

A word in camel case or with dashes gets underscores. A lemma that would then have the name of a definition, or of another lemma, gets `_lem`. Names that Rattle makes, those of src/,
and words that a file takes from a library stay. It prints what it cannot decide.
"""
import collections
import os
import re
import sys

TOKEN = r'[^\s(){}.;,@"«»]+'
DECLARED = re.compile(r"^([ \t]*)(?:(?:abbrev|unfoldable|pub|private) )*((?:" + TOKEN + r" )+):(?= |$)")
KEYWORDS = {"record", "data", "abbrev", "pub", "unfoldable", "let", "use", "module", "where", "in", "="}
# Two definitions that would meet: the one in these crates gets a name of its own.
APART = {
    "rules_deck": {"isName": "is_the_name"},
    "rules_formats": {"a-comma": "comma_between"},
    "rules_text": {"an-element": "element_factor", "a-loop": "a_do_loop"},
}
# Rattle makes a module `contracts`.
MOVED = {"crates/take_instructions/specs/Contracts.antt": ("Contracts", "Emitting")}


def files(end):
    for folder, dirs, names in os.walk("crates"):
        dirs[:] = sorted(d for d in dirs if d != "out")
        for name in sorted(names):
            if name.endswith(end):
                yield os.path.join(folder, name)


def snake(name):
    return re.sub(r"(?<=[a-z0-9])([A-Z]+(?![a-z])\d*|[A-Z])", lambda m: "_" + m.group(1).lower(), name).replace("-", "_")


def of_a_function(path):
    return re.search(r"/proofs/.+/", path) is not None


def uncommented(text):
    return re.sub(r"(?<![^\s(){}.;,])--[^\n]*", "", text)


def declarations():
    """Returns the words and the fields that are declared, each with the files that do."""
    words, fields = collections.defaultdict(set), collections.defaultdict(set)
    for path in files(".antt"):
        if of_a_function(path):
            continue
        record, depth = False, 0
        for line in uncommented(open(path, encoding="utf-8").read()).split("\n"):
            if line.strip():
                indent = len(line) - len(line.lstrip())
                if record and indent <= depth:
                    record = False
                if re.match(r"\s*(?:pub )?record ", line):
                    record, depth = True, indent
                    continue
            m = DECLARED.match(line)
            if m:
                for name in m.group(2).split():
                    if name not in KEYWORDS and not re.match(r"[=→λ◌_|]", name):
                        (fields if record else words)[name].add(path)
    return words, fields


def tables():
    words, fields = declarations()
    groups = collections.defaultdict(set)
    for name in words:
        if not name[0].isupper():
            groups[snake(name)].add(name)
    word = {}
    for base, names in groups.items():
        # a definition keeps the plain name
        rank = lambda n: (not any("/specs/" in p for p in words[n]), n != base, "-" in n, n)
        first, *others = sorted(names - {n for it in APART.values() for n in it}, key=rank) or [None]
        if first:
            word[first] = base
        for n in others:
            word[n] = base + "_lem"
            if any("/specs/" in p for p in words[n]):
                print(f"two definitions become {base}: {sorted(names)}: {n} in {sorted(words[n])}")
    word.update((n, snake(n) + "_lem") for it in APART.values() for n in it)
    field = {n: snake(n) for n in fields if not n[0].isupper()}
    for n in field:
        if n in word and word[n] != field[n]:
            print(f"a field and a lemma: {n}: {sorted(words[n])} {sorted(fields[n])}")
    return {a: b for a, b in word.items() if a != b}, {a: b for a, b in field.items() if a != b}, words, fields


USE = re.compile(r"\buse ([^\s;{}]+)(?:\{([^}]*)\})?(?: as ([^\s;]+))?", re.S)


def scope(text, own):
    """Returns the names that a file takes from libraries, and the modules' other names."""
    taken, aliases = set(), set()
    for m in USE.finditer(text):
        path = m.group(1).rstrip(".")
        parts = path.split(".")
        ours = parts[0] == "Rattle" and len(parts) > 1 and parts[1] in own
        if m.group(3):
            aliases.add(m.group(3))
        for it in (m.group(2) or "").split(","):
            it = it.strip()
            if it and not ours:
                taken.update(re.split(r"\s+as\s+", it))
    return taken, aliases


QUIET = re.compile(r'"(?:[^"\\\n]|\\.)*"|(?<![^\s(){}.;,@])(?:--|//)[^\n]*')
CALLED = re.compile(TOKEN)


def turned(text, taken, aliases, word, field, clauses_only=False):
    def in_code(part):
        def one(m):
            name, at = m.group(0), m.start()
            if name in taken or name[0].isupper():
                return name
            if at and part[at - 1] == ".":
                head = re.search(r"([^\s(){}.;,@\"]+)\.$", part[:at])
                if head and (head.group(1) in aliases or head.group(1)[0].isupper()):
                    return word.get(name, field.get(name, name))
                return field.get(name, name)
            if name in word and not (clauses_only and "_" in name):
                return word[name]
            return field.get(name, name)

        return CALLED.sub(one, part)

    def in_comment(part):
        spans = re.sub(r"`([^`\n]+)`", lambda m: "`" + in_code(m.group(1)) + "`", part)
        return re.sub(r"\b[a-z]+[A-Z]\w*\b", lambda m: word.get(m.group(0), field.get(m.group(0), m.group(0))), spans)

    out, at = [], 0
    for m in QUIET.finditer(text):
        out.append(in_code(text[at : m.start()]))
        out.append(m.group(0) if m.group(0)[0] == '"' else in_comment(m.group(0)))
        at = m.end()
    out.append(in_code(text[at:]))
    return "".join(out)


def main():
    own = set(os.listdir("crates"))
    word, field, words, fields = tables()
    print(f"{len(word)} words and {len(field)} fields are spelled anew")
    for path in list(files(".antt")) + list(files(".rt")):
        text = open(path, encoding="utf-8").read()
        taken, aliases = scope(text, own)
        new = text.replace("Rattle.take_instructions.specs.Contracts", "Rattle.take_instructions.specs.Emitting")
        if path == "crates/take_instructions/specs/Lib.antt":
            new = new.replace("pub mod Contracts", "pub mod Emitting")
        crate = path.split("/")[1]
        apart = {a: b for it, table in APART.items() if it == crate or f"Rattle.{it}." in text for a, b in table.items() if it == crate or a != "an-element"}
        new = turned(new, taken, aliases, {**word, **apart}, field, path.endswith(".rt"))
        if new != text:
            open(path, "w", encoding="utf-8").write(new)
    for old, (a, b) in MOVED.items():
        if os.path.exists(old):
            os.rename(old, old.replace(a, b))


if __name__ == "__main__":
    sys.exit(main())
