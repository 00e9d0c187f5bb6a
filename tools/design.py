#!/usr/bin/env python3
"""tools/design.py [--list] [CRATES]: counts, in the code of a folder of crates (crates/ if none is named), the places of the points of docs/DESIGN-PASS.md.

A rule that a script can follow finds a place or misses it whatever a reader thinks of it: the page says which of those found are none."""
import collections
import pathlib
import re
import sys

FAILURES = ("Bad Wrong Nothing Nowhere No None ByZero End Full Short Refused Stops Right Halted Halt").split()
TABLES = "names constants elements dos loops code rows jumps".split()
KEYWORDS = set("fn pub let mut if else while for in loop match return struct enum impl self as ref move true false".split())


def matching(text, at):
    """The index after the bracket that closes the one at `at`."""
    pairs, depth = {"{": "}", "(": ")", "[": "]"}, 0
    close = pairs[text[at]]
    for i in range(at, len(text)):
        depth += (text[i] == text[at]) - (text[i] == close)
        if depth == 0:
            return i + 1
    raise SystemExit(f"design.py: no {close} for the one at {at}")


class Function:
    def __init__(self, crate, text, start):
        self.crate = crate
        self.name = re.match(r"fn (\w+)", text[start:])[1]
        self.line = text.count("\n", 0, start) + 1
        opened = text.index("(", start)
        closed = matching(text, opened)
        self.parameters = re.findall(r"(\w+): ([^,]+(?:<[^>]*>)?)", text[opened + 1 : closed - 1])
        at = closed
        arrow = re.match(r"\s*->\s*([^\n{]+)", text[at:])
        self.result = arrow[1].strip() if arrow else ""
        at += arrow.end() if arrow else 0
        self.clauses = []
        while (clause := re.match(r"\s*(requires|ensures)\*?( \w+)? (?=\{)", text[at:])):
            end = matching(text, at + clause.end())
            self.clauses.append((clause[1], " ".join(text[at + clause.end() + 1 : end - 1].split())))
            at = end
        body = text.find("{", at)
        self.body = text[body : matching(text, body)] if body >= 0 else ""

    def place(self, what=""):
        return f"{self.crate}::{self.name} (line {self.line}){' ' + what if what else ''}"

    def shape(self):
        """Its parameters and its body, with each name by the order in which it comes, types and numbers made one."""
        names = {}
        text = " ".join(n for n, _ in self.parameters) + " | " + self.body
        text = re.sub(r"\b(u8|u16|u32|u64|usize|i64|bool)\b", "T", text)
        text = re.sub(r"\b\d[\d_]*(u8|u16|u32|u64|usize|i64)?\b|b'.'|0x[\da-f_]+", "N", text)
        name = lambda m: m[0] if m[0] in KEYWORDS or m[0] in "TN" else names.setdefault(m[0], f"v{len(names)}")
        return " ".join(re.sub(r"[A-Za-z_]\w*", name, text).split())


def functions(crate, text):
    return [Function(crate, text, m.start(1)) for m in re.finditer(r"(?:^|\s)(fn \w+)(?=[<(])", text)]


def counted(body):
    """The loops in which a variable of the `while` counts on by one."""
    for m in re.finditer(r"while ([^{]+)\{", body):
        inside = body[m.end() - 1 : matching(body, m.end() - 1)]
        if any(re.search(rf"\b{v} [+-]= 1;|\b{v} = {v} [+-] 1;", inside) for v in re.findall(r"[a-z_]\w*", m[1])):
            yield m[1].strip()


def places(root):
    found = collections.defaultdict(list)
    shapes, clauses = collections.defaultdict(list), collections.defaultdict(set)
    for path in sorted(root.glob("*/src/**/*.rt")):
        crate = path.relative_to(root).parts[0]
        text = re.sub(r"//[^\n]*", "", path.read_text())
        for m in re.finditer(r"(#\[repr\(C\)\]\s*)?(?:#\[derive[^\]]*\]\s*)?(?:pub )?(enum|struct) (\w+)[^{;(]*\{", text):
            inside = re.sub(r"\{[^{}]*\}|\([^()]*\)", "", text[m.end() : matching(text, m.end() - 1) - 1])
            members = re.findall(r"(?:pub )?(\w+)", re.sub(r":[^,]*", "", inside))
            if m[2] == "enum" and set(members) & set(FAILURES) and len(members) < 12:
                found["1 own enums with a variant for failure or none"].append(f"{crate}::{m[3]}")
            if m[2] == "struct" and not m[1] and set(members) & {"halt", "number", "minus"}:
                found["1 structs with a number or a flag beside a value"].append(f"{crate}::{m[3]}")
            counts = [x for x in members if x.endswith("_count")]
            if counts:
                found["6 lengths beside the places of bodies"] += [f"{crate}::{m[3]}.{x}" for x in counts]
        for name in re.findall(r"const (\w+): u(?:8|16|32|64) = [\d_]+;", text):
            if crate in ("object_opcodes", "take_kinds") or re.search(rf"\b{name} =>|== {name}\b", text):
                found["1 numbers for kinds and halts"].append(f"{crate}::{name}")
        for f in functions(crate, text):
            if re.fullmatch(r"u8|u32|u64", f.result) and re.search(r"(return|=>) \d+[;,]", f.body):
                found["1 functions that answer by a number"].append(f.place())
            for condition in counted(f.body):
                found["3 loops that count an index by hand"].append(f.place(condition))
            statements = f.body[1:-1].strip()
            if re.fullmatch(r"\(?\w+ as \w+\)?( [+-] 1)?|\w+\.0|\w+\.\w+", statements):
                found["4 conversions of one line"].append(f.place())
            if re.match(r"(is_(digit|letter|letter_or_digit|minus)|same_\w+|larger|size|copy|fill|clear|digit)$", f.name):
                found["4 equality, copying and classes by hand"].append(f.place())
            names = {n: t for n, t in f.parameters}
            if names.get("o") == "&[u8]" and names.get("e", "").endswith("Layout"):
                found["5 functions that take an object's bytes and its layout"].append(f.place())
            if sum(n in TABLES and "[" in t for n, t in f.parameters) > 2:
                found["5 functions that take three of the tables or more"].append(f.place())
            if any("[" in t and not t.startswith("[") for _, t in f.parameters) and names.get("n") == "usize":
                found["6 functions that take a table and how many stand in it"].append(f.place())
            for m in re.finditer(r"match [^{]+\{", f.body):
                arms = f.body[m.end() - 1 : matching(f.body, m.end() - 1)]
                if len(re.findall(r"=> (?:\w+::)*\w+\([^()]*\)", arms)) > 3:
                    found["7 switches on which step to run"].append(f.place())
            if len(f.body) > 60:
                shapes[f.shape()].append(f.place())
            for kind, clause in f.clauses:
                for part in clause.split(" × ") if kind == "requires" else ():
                    clauses[part.strip("() ")].add(f.place())
    for group in shapes.values():
        if len(group) > 1:
            found["2 twins: functions alike but for types, names and numbers"].append(" ~ ".join(group))
    for clause, where in sorted(clauses.items()):
        if len(where) > 2:
            found["5 facts required by three functions or more"].append(f"{len(where)} times: {clause}")
    for path in sorted(root.glob("*/proofs/**/Answers.antt")):
        crate = path.relative_to(root).parts[0]
        found["8 answers in proofs"] += [crate] * len(re.findall(r"^pub [^\n:]+ : goal\.", path.read_text(), re.M))
    return found


arguments = [a for a in sys.argv[1:] if a != "--list"]
for point, list_of in sorted(places(pathlib.Path(arguments[0] if arguments else "crates")).items()):
    print(f"{len(list_of):5}  {point}")
    if "--list" in sys.argv and not point.startswith("8"):
        print("".join(f"         {place}\n" for place in list_of), end="")
