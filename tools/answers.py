#!/usr/bin/env python3
"""Turns proofs of an older kit, walks in proofs/F/Proof.antt, into today's Invariants.antt and Answers.antt, and takes the walks away.

usage: answers.py CRATE_FOLDER NAMES.json [F ..]

In the crate's folder, whose libraries are proved, `rt check --generated DIR --old-names` writes DIR/names.json: how goals, places and steps were called and are called now. By it, names are
turned, and so are positions among clauses, parameters and a loop's variables; answers that said only `search rules` go. What it cannot place it prints; `rt check` then decides. It was
written for the walks of this repository, and knows no others.
"""
import json
import os
import re
import sys

CRATES, CRATE = os.path.split(os.path.abspath(sys.argv[1]))
WORD = r'[^\s(){}.;,@"«»]+'
# A name that stands by itself, and what follows it with dots.
ALONE, END = r"(?<![^\s(){};,@])", r"(?![^\s(){}.;,@])"
# Fields of a place that are no step's.
OWN_FIELDS = {"args", "requires", "ranges", "type_inv", "well_formed", "lifetimes", "utf8", "auto", "new", "captures"}


def dashed(name):
    return name.replace("_", "-")


def told(function, what):
    print(f"{CRATE}::{function}: {what}")


# ---- what src/ says of each function


class Function:
    def __init__(self, params=(), requires=(), ensures=()):
        self.params, self.requires, self.ensures = list(params), list(requires), list(ensures)

    def param(self, name):
        """An array that is a parameter had the name t1, t2 .. of its place."""
        name = name.replace("-", "_")
        at = re.fullmatch(r"t(\d+)", name)
        known = at and name not in self.params and 0 < int(at.group(1)) <= len(self.params)
        return self.params[int(at.group(1)) - 1] if known else name


def functions():
    found = {}
    for crate in os.listdir(CRATES):
        for root in ("lib.rt", "main.rt"):
            path = os.path.join(CRATES, crate, "src", root)
            if os.path.exists(path):
                text = re.sub(r"//[^\n]*", "", open(path).read())
                for name, head in re.findall(r"(?s)\bfn (\w+)(.*?)\n\{", text):
                    params = re.match(r"(?s)\s*(?:<[^>]*>)?\((.*?)\n?\)\s*(?:->|\n|$)", head)
                    found[f"{crate}::{name}"] = Function(
                        re.findall(r"(?:^|,)\s*(?:mut )?(\w+)\s*:(?!:)", params.group(1)) if params else (),
                        re.findall(r"\brequires (?:(\w+) )?\{", head),
                        re.findall(r"\bensures (?:(\w+) )?\{", head),
                    )
    return found


FUNCTIONS = functions()


def function(name):
    return FUNCTIONS.get(name, Function())


# ---- positions in nested pairs, and records with names


def position(fields):
    """Of fields 1.1.0 and so on: how many pairs were gone into, and what is left behind the last part."""
    deep = 0
    while fields[deep:] and fields[deep] == "1":
        deep += 1
    return deep, fields[deep:]


def by_clause(fields, clauses):
    """The fields behind `requires` or `ensures` by the clauses' names; None where they name no clause."""
    if len(clauses) == 1 and clauses[0]:
        return [clauses[0], *fields]
    if len(clauses) < 2 or not fields or fields[0] not in ("0", "1"):
        return fields
    deep, rest = position(fields[: len(clauses) - 1])
    if deep == len(clauses) - 1:
        return [clauses[-1], *fields[deep:]]
    return [clauses[deep], *fields[deep + 1 :]] if rest and rest[0] == "0" else None


def parts_of_pair(term):
    """The parts of a term (A, B ..), or None."""
    if not term.startswith("("):
        return None
    depth, parts = 0, [""]
    for at, c in enumerate(term):
        depth += (c in "([{") - (c in ")]}")
        if depth == 0 and at < len(term) - 1:
            return None
        if depth == 1 and c == ",":
            parts.append("")
        elif at and depth:
            parts[-1] += c
    return parts if len(parts) > 1 else None


def behind_the_lets(body):
    depth = at = 0
    for m in re.finditer(r"[()\[\]{}]|(?<!\S)in(?=\s)", body):
        s = m.group(0)
        depth += (s in "([{") - (s in ")]}")
        if s == "in" and depth == 0:
            at = m.end()
    return at


def as_record(body, clauses, f, goal):
    """A body that answers each of the clauses, by their names."""
    if not clauses or len(clauses) == 1 and not clauses[0]:
        return body
    at = behind_the_lets(body)
    term = body[at:].strip()
    if len(clauses) == 1 and re.match(r"record \{ *" + re.escape(clauses[0]) + " =", term):
        return body
    parts, rest = [], term
    for _ in clauses[1:]:
        split = parts_of_pair(rest)
        if split is None:
            told(f, f"{goal}: not a tuple of {len(clauses)}: {term[:60]!r}")
            return body
        split = [it.strip() for it in split]
        parts.append(split[0])
        rest = split[1] if len(split) == 2 else f"({', '.join(split[1:])})"
    fields = "; ".join(f"{name} = {it}" for name, it in zip(clauses, [*parts, rest]))
    return body[:at] + (re.match(r"\s*", body[at:]).group(0) or " ") + f"record {{ {fields} }}"


# ---- how one function's goals, places and steps are called


class Names:
    def __init__(self, f, given, measured=False):
        self.f, self.given, self.measured = f, given, measured
        self.own = function(f"{CRATE}::{f}")
        self.places = {p[0]: p for p in given["places"]}
        self.place_now = dict(zip(self.places, given["places_by_name"]))
        self.arms = dict(zip(self.places, given["arms"]))
        self.goals = {dashed(old): (now, at[0]) for (old, now), at in zip(given["needs"], given["asked_at"])}
        self.loops = {dashed(old): (now, vs, ch) for ((old, now), vs), ch in zip(given["loops"], given["changed"])}
        self.callees = {p[2][1]: p[3] for p in given["places"] if p[3]}

    def goal(self, *spellings):
        """The goal that had one of these names, and the place at which it is asked."""
        names = [dashed(it) for it in spellings]
        names += [re.sub("^(overflow|nonzero|offset-bounds)-", "", it) for it in names]
        names += [it.replace("-holds", "-init").replace("-less", "-smaller").replace("-again", "-preserved") for it in names]
        return next((it for it in names if it in self.goals), None)

    def steps(self, place):
        """The steps on the way to a place, the last first, by their old names: the name now, and the place behind the step."""
        steps = {}
        while place in self.places:
            old, now = self.places[place][2]
            if old:
                steps.setdefault(dashed(old), (now, place))
            place = self.places[place][1]
        return steps

    def own_path(self, fields):
        if fields[0] == "requires":
            behind = fields[1:]
            if self.measured and behind[:1] == ["1"]:
                behind = behind[1:]
            named = by_clause(behind, self.own.requires)
            return ["requires", *(behind if named is None else named)]
        if fields[0] == "args" and len(fields) > 1:
            return ["args", self.own.param(fields[1]), *fields[2:]]
        return fields

    def among_params(self, path, params):
        """new.1.0 and auto.1.0 behind a step, by the parameter's name."""
        deep, rest = position(path[2:])
        if params and rest and rest[0] == "0" and deep < len(params):
            return [*path[:2], params[deep].replace("-", "_"), *rest[1:]]
        told(self.f, f"{'.'.join(path)} not placed")
        return path

    def step_path(self, old, now, place, rest):
        path = [now, *rest]
        if rest[:1] == ["branch"]:
            path[1] = "branch-raw"
            told(self.f, f"{now}.branch-raw: in its cases write w.STEP.true etc. by name where positions or .taken/.left stood")
        arm = self.arms[place]
        for field, step, behind in sorted(arm[2] if arm else [], key=lambda it: -len(it[2])):
            if dashed(step) == old and [dashed(it) for it in rest[: len(behind)]] == [dashed(it) for it in behind]:
                path = [arm[0], field, *rest[len(behind) :]]
                break
        callee, loop = self.places[place][3], self.loops.get(old)
        if len(path) > 2 and path[1] in ("new", "auto") and path[2] in ("0", "1"):
            path = self.among_params(path, self.given["params"].get(callee) if callee else loop and loop[1])
        if path[1:2] == ["ensures"] and callee in FUNCTIONS:
            named = by_clause(path[2:], FUNCTIONS[callee].ensures)
            if named is None:
                told(self.f, f"{'.'.join(path)}: clauses")
            else:
                path = [*path[:2], *named]
        if len(path) > 1:
            renamed = dict(self.places[place][4])
            path[1] = {**renamed, "type-inv": "type_inv"}.get(path[1], path[1])
            if path[1] == "new" and len(path) > 2:
                path[2] = path[2].replace("-", "_")
            if loop and path[1] != "invariant":
                path[1] = path[1].replace("-", "_")
        return path

    def path(self, fields, place):
        """The fields behind a place's record, as they are called now."""
        first = fields[0].replace("-", "_") if fields[0] in ("well-formed", "type-inv") else fields[0]
        if first in OWN_FIELDS:
            return self.own_path([first, *fields[1:]])
        steps = self.steps(place)
        # the scripts before this one respelled some names that Rattle had made
        spellings = [first, "size-of" if dashed(first) == "type-size" else first, first[:-1] if re.search(r"[^-\d]\d$", first) else first]
        spellings += [first[:-4] if dashed(first).endswith("-lem") else first, first[0].lower() + first[1:]]
        old = next((dashed(it) for it in spellings if dashed(it) in steps), None)
        if old is None:
            told(self.f, f"step {first} not at {place}")
            return fields
        now, behind = steps[old]
        return self.step_path(old, now, behind, fields[1:])

    def turned(self, text, record, place):
        """A text in which the name `record` stands for what is known at a place."""
        paths = lambda name: re.compile(ALONE + re.escape(name) + rf"((?:\.{WORD})*)" + END)
        # a name for an earlier place goes: the record has each step by its name
        while True:
            let = re.search(rf"[ \t]*let ({WORD}) = ({re.escape(record)}(?:\.before)*) in\s*?(\n|(?= ))", text)
            if not let:
                break
            text = paths(let.group(1)).sub(lambda m: let.group(2) + m.group(1), text[: let.start()] + text[let.end() :])

        def one(m):
            fields = [it for it in m.group(1).split(".") if it]
            while fields and fields[0] == "before":
                fields = fields[1:]
            return ".".join([record, *self.path(fields, place)]) if fields else m.group(0)

        return paths(record).sub(one, text)

    def lets_turned(self, body):
        """Positions behind a name that a `let` gives to a call, to what it ensures, or to the requires."""
        for name, step, of in re.findall(rf"let ({WORD}) = c\.({WORD})(\.ensures)? in", body):
            callee = self.callees.get(step)
            clauses = function(callee).ensures if callee else self.own.requires if step == "requires" and not of else []

            def one(m):
                fields = [it for it in m.group(1).split(".") if it]
                if callee and not of:
                    if len(fields) > 1 and fields[0] in ("new", "auto") and fields[1] in ("0", "1"):
                        fields = self.among_params([step, *fields], self.given["params"].get(callee))[1:]
                    elif fields[0] == "ensures" and len(clauses) > 1 and len(fields) > 1:
                        fields = ["ensures", *(by_clause(fields[1:], clauses) or fields[1:])]
                elif len(clauses) > 1:
                    fields = by_clause(fields, clauses) or fields
                return ".".join([name, *fields])

            body = re.sub(ALONE + re.escape(name) + rf"((?:\.{WORD})+)" + END, one, body)
        return body

    def answered(self, body, old, goal):
        """The body with a name for each clause that the goal has."""
        if goal.startswith("returns"):
            return as_record(body, self.own.ensures, self.f, goal)
        call = re.match(r"(.*)-requires(-\d+)?$", old)
        if call:
            called = call.group(1)
            short = {k: dashed(k.split("::")[-1]) for k in self.given["params"]}
            callees = [k for k, it in short.items() if it in (called, re.sub("^.*-", "", called))]
            callees = callees or [k for k, it in short.items() if called.endswith(it)]
            if callees and callees[0] in FUNCTIONS:
                return as_record(body, FUNCTIONS[callees[0]].requires, self.f, goal)
        return body

    def in_loop(self, what, loop, args, body):
        """An invariant or a measure over the loop's variables by name."""
        now, variables, changed = self.loops[loop]
        order = [f"l.initial.{v}" if c else f"l.{v}" for v, c in zip(variables, changed)] + [f"l.{v}" for v, c in zip(variables, changed) if c]
        if len(order) != len(args):
            told(self.f, f"{what}: {len(args)} arguments, {len(order)} variables")
        means = dict(zip(args, order))
        bound = binders(body, means)

        def one(m):
            here = any(start <= m.start() < end and m.group(1) in names for start, end, names in bound)
            return m.group(0) if here else means[m.group(1)]

        every = "|".join(map(re.escape, sorted(means, key=len, reverse=True)))
        return now, re.sub(ALONE + f"({every})" + END, one, body) if means else body


def binders(body, names):
    """Where a λ or a binder hides one of the names: from, to, and which."""

    def end_of(at):
        depth = 0
        while at < len(body):
            depth += (body[at] in "([{") - (body[at] in ")]}")
            if depth < 0:
                break
            at += 1
        return at

    found = []
    for m in re.finditer(rf"λ ((?:{WORD} )*{WORD})\.(?=\s)|(?:λ )?\(({WORD}(?: {WORD})*) : ", body):
        hidden = [it for it in (m.group(1) or m.group(2)).split() if it in names]
        if hidden:
            found.append((m.start(), end_of(end_of(m.end()) + 1) if m.group(2) else end_of(m.end()), hidden))
    return found


# ---- the text of a walk


def blocks(text):
    """From one line at the margin to the next; comments go with what follows them."""
    out = [[]]
    for line in text.split("\n"):
        at_margin = line and not line[0].isspace() and line[0] != ")"
        if at_margin and out[-1] and not all(it.startswith("--") for it in out[-1]):
            out.append([])
        out[-1].append(line)
    return ["\n".join(it) for it in out]


def first_line(block):
    return next((line for line in block.split("\n") if not line.startswith("--")), "")


def declarations(text):
    """Kind (use, decl, other), name and text of each declaration with its equations."""
    found = []
    for block in blocks(text):
        head = first_line(block)
        if not head.strip():
            continue
        signature = re.match(rf"(?:(?:abbrev|unfoldable|pub|private) )*({WORD})(?: {WORD})* :(?= |$)", head)
        word = re.match(WORD, head)
        if head.startswith(("use ", "pub use ")):
            found.append(["use", "", block])
        elif signature:
            found.append(["decl", signature.group(1), block])
        elif found and found[-1][0] == "decl" and (head.startswith("unfolding") or word and word.group(0) == found[-1][1]):
            found[-1][2] += "\n" + block
        else:
            found.append(["other", "", block])
    return found


def uncommented(block):
    return "\n".join(line for line in block.strip().split("\n") if not line.startswith("--"))


def equation(name, block, behind):
    """The arguments and the body of the equation that stands behind a text of the signature."""
    text = block[block.index(behind) :]
    m = re.search(rf"(?m)^{re.escape(name)}((?: \S+)*?) =", text)
    return m.group(1).split(), text[m.end() :]


def is_found_by_itself(body):
    return body.split() == ["search", "rules"]


def lines_of(block, beginning):
    return [line for line in block.split("\n") if line.startswith(beginning)]


def plain_tests(text):
    text = re.sub(r"not-true _ (c\.if-not-[\w-]+)\.true-raw(?![\w-])", r"\1.true", text)
    return re.sub(r"not-false _ (c\.if-not-[\w-]+)\.false-raw(?![\w-])", r"\1.false", text)


def write(folder, name, *parts):
    with open(os.path.join(folder, name), "w") as f:
        f.write("\n\n".join(it for it in parts if it) + "\n")


# ---- a function that calls itself, or several that call one another


def cycle(f, folder, found, names):
    """Names of each function come under a module of its own, and each goal takes the measure's value first."""
    of = {}
    for key, given in names.items():
        m = re.match(rf"Rattle-{CRATE}-proofs\.{re.escape(f)}\.Lts-(.*)$", key)
        if m:
            of[dashed(m.group(1))] = Names(m.group(1), given, measured=True)
    params = {k.split("::")[-1]: ps for it in of.values() for k, ps in it.given["params"].items()}
    uses, helpers, loops, answers = [], [], [], []
    for kind, name, block in found:
        head = first_line(block)
        measure = re.match(r"abbrev μ-(\S+) : Measures", head)
        loop = re.match(r"abbrev \S+ : (\S+)-lts\.(invariant|decreases)-(\S+)", head)
        need = re.search(r"(\S+)-lts\.Need-\S+", block)
        if kind == "use":
            if not re.search(r"PlainCycle|\.Tie\b|\{statement\}|\bLts-|\.Reads as|\.Kinds as|borrow\.Fn\.Kinds", block):
                uses.append(uncommented(block))
        elif re.search(r"pub \+\S+[-_]spec", block) or re.match(r"abbrev \S+-(?:(?:at|below) : \S+ → In|calls :) ", head):
            continue
        elif measure:
            which = of[dashed(measure.group(1))].f
            args, body = equation(name, block, "\n")

            def one(m):
                deep, rest = position([it for it in m.group(1).split(".") if it])
                return ".".join(["l", params[which][deep], *(rest[1:] if rest[:1] == ["0"] else rest)])

            body = re.sub(ALONE + re.escape(args[-1]) + rf"((?:\.{WORD})+)" + END, one, body).strip()
            loops.append(f"abbrev pub decreases-{which} : goal.decreases-{which}\ndecreases-{which} l = {body}")
        elif loop:
            it = of[dashed(loop.group(1))]
            now, body = it.in_loop(name, dashed(loop.group(3)), *equation(name, block, "\n"))
            goal = f"{loop.group(2)}-{it.given.get('stem') or ''}{now}"
            loops.append(f"abbrev pub {goal} : goal.{goal}\n{goal} l ={body.rstrip()}")
        elif kind == "other" or not need:
            helpers.append(block.rstrip())
        else:
            it = of[dashed(need.group(1))]
            args, body = equation(name, block, "-lts.Need-")
            short = dashed(name).removeprefix(dashed(need.group(1)) + "-")
            old = it.goal(short)
            if is_found_by_itself(body):
                continue
            if old is None:
                told(f, f"{name}: no such goal; {body.strip()[:80]!r}")
                continue
            now, place = it.goals[old]
            body = it.answered(it.lets_turned(it.turned(body, "c", place)), short, now)
            goal = (it.given.get("stem") or "") + now
            args = " ".join(a for a in args if a != "κs")
            answers.append("\n".join([f"pub {goal} : goal.{goal}", *lines_of(block, "unfolding"), f"{goal} {args} ={body.rstrip()}"]))
    for name, module, parts in (("Invariants.antt", "Given", loops), ("Answers.antt", "Goals", helpers + answers)):
        write(folder, name, "\n".join([*uses, f"use Rattle.{CRATE}.proofs.{f}.{module} as goal"]), *parts)


# ---- any other function


def places_turned(it, text):
    """The type of a place's record, by its name now."""

    def one(m):
        if m.group(1) not in it.place_now:
            told(it.f, "tie." + m.group(1))
        return "goal." + it.place_now.get(m.group(1), m.group(1))

    return re.sub(rf"\btie\.({WORD})", one, text)


def helper(it, name, block):
    """A definition of the walk's own, which may be over the record of a place."""
    over = re.search(rf"\((\w+) : tie\.({WORD})\)", block)
    if over and over.group(2) in it.places:
        block = it.turned(block, over.group(1), over.group(2))
    elif "tie." in block:
        told(it.f, f"helper {name} cites tie")
    return places_turned(it, block).rstrip()


def with_loops(f, folder, uses, intro, loops, helpers):
    """Writes the invariants with the definitions that they name; answers what is left of these, and how to import the others."""
    named, text = [], "\n\n".join(loops)
    name_of = lambda it: re.match(rf"(?:--[^\n]*\n)*(?:(?:abbrev|unfoldable|pub) )*({WORD})", it).group(1)
    more = True
    while more:
        more = [it for it in helpers if it not in named and re.search(r"(?<![^\s(){};,@.])" + re.escape(name_of(it)) + END, text)]
        named += more[:1]
        text += "".join("\n" + it for it in more[:1])
    named = [it for it in helpers if it in named]
    public = [re.sub(r"(?m)^((?:abbrev|unfoldable) )(?!pub)", r"\1pub ", it, count=1) for it in named]
    write(folder, "Invariants.antt", "\n".join([*intro, *uses, f"use Rattle.{CRATE}.proofs.{f}.Given as goal"]), *public, *loops)
    imports = [f"use Rattle.{CRATE}.proofs.{f}.Invariants.{{{', '.join(map(name_of, named))}}}"] if named else []
    return [it for it in helpers if it not in named], imports


def walk(f, folder, text, names):
    key = next((k for k in names if re.match(rf"Rattle-{CRATE}-proofs\.{re.escape(f.replace('/', '.'))}\.Lts", k)), None)
    if key is None:
        return told(f, "no names")
    it = Names(f, names[key])
    uses, helpers, loops, answers = [], [], [], []
    for kind, name, block in declarations(text):
        over = re.search(r" : tie\.(Need-\S+|invariant\S*|decreases\S*)", block)
        if kind == "use":
            if not re.search(r"\.(Statement|Tie)\b", block):
                uses.append(uncommented(block))
        elif kind == "other":
            helpers.append(block.rstrip())
        elif "tie.close" in block or re.search(r"(?:^|\n)pub \S+[-_]spec : ", block):
            continue
        elif over is None:
            helpers.append(helper(it, name, block))
        elif not over.group(1).startswith("Need-"):
            what, _, loop = over.group(1).partition("-")
            if dashed(loop) not in it.loops:
                told(f, f"{over.group(1)}: no loop")
                continue
            now, body = it.in_loop(name, dashed(loop), *equation(name, block, " : tie."))
            goal = f"{what}-{now}"
            loops.append("\n".join([*lines_of(block, "--"), f"abbrev pub {goal} : goal.{goal}", f"{goal} l ={body.rstrip()}"]))
        else:
            args, body = equation(name, block, " : tie.")
            old = it.goal(name, over.group(1)[5:])
            if is_found_by_itself(body):
                continue
            if old is None:
                if not name.startswith(("slice-aggregate", "array-read", "element-")):
                    told(f, f"{name}: no such goal now; body {body.strip()[:80]!r}")
                continue
            goal, place = it.goals[old]
            body = places_turned(it, it.turned(body, args[0], place))
            body = it.answered(it.lets_turned(body), old, goal)
            args = " ".join(a for a in args if a not in ("κs", "_"))
            lines = [*lines_of(block, "--"), f"pub {goal} : goal.{goal}", *lines_of(block, "unfolding"), f"{goal} {args} ={body.rstrip()}"]
            answers.append(plain_tests("\n".join(lines)))
    intro = [line for line in text.split("\n")[:3] if line.startswith("--")][:1]
    imports = []
    if loops:
        helpers, imports = with_loops(f, folder, uses, intro, loops, helpers)
    if answers:
        write(folder, "Answers.antt", "\n".join([*intro, *uses, *imports, f"use Rattle.{CRATE}.proofs.{f}.Goals as goal"]), *helpers, *answers)


def turn(f, folder, names):
    path = os.path.join(folder, "Proof.antt")
    text = open(path).read()
    # the name that the new files give to the goals
    if re.search(r"(?m)^use \S+ as goal$", text):
        text = re.sub(r"(?m)^(use \S+ as) goal$", r"\1 given", text)
        text = re.sub(r"(?<![\w.\-])goal\.(?=\w)", "given.", text)
    if f.startswith("+"):
        cycle(f, folder, declarations(text), names)
    else:
        walk(f, folder, re.sub(r" :[ \t]*\n[ \t]+tie\.", " : tie.", text), names)
    os.remove(path)


def main(crate, names, *only):
    with open(names) as f:
        names = json.load(f)
    for folder, _, files in sorted(os.walk(os.path.join(crate, "proofs"))):
        f = os.path.relpath(folder, os.path.join(crate, "proofs"))
        if "Proof.antt" in files and (not only or f in only):
            turn(f, folder, names)


if __name__ == "__main__":
    main(*sys.argv[1:])
