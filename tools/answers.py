#!/usr/bin/env python3
"""Turns a function's Proof.antt of an older Rattle into Invariants.antt and Answers.antt.

usage: python3 tools/answers.py NAMES.json CRATE..    in the repository; NAMES.json by `rt check --generated FOLDER --old-names` in the crate's folder

It reads which goal each argument of `tie.spec` was for, and where a path into the known facts ended, and writes the goal's name and the path of today.
What it can't turn it says in lines 'left:'. An answer that is only `search rules`, `omega arith` or `tt` is left out, as the check tries these itself.
"""

import glob
import json
import os
import re
import sys

WORD = r"[^\s(){},;.\[\]⌜⌝«»]+"
FIELD = r"(?:«[^»]*»|" + WORD + r")"


def norm(name):
    return name.replace("-", "_")


class Decl:
    def __init__(self, head):
        self.comment, self.name, self.type, self.abbrev, self.unfolding, self.clauses, self.raw = [], None, "", False, [], [], head


def declarations(lines):
    """The head (comments and imports) and the declarations, each a list of lines."""
    head, rest, i = [], [], 0
    while i < len(lines) and (not lines[i].strip() or lines[i].startswith("--") or lines[i].startswith("use ")):
        head.append(lines[i])
        i += 1
    # comments right above the first declaration
    back = []
    while head and head[-1].startswith("--") and any(h.startswith("use ") for h in head):
        back.insert(0, head.pop())
    rest = back + lines[i:]
    blocks, block = [], []
    for line in rest:
        if not line.strip():
            if block:
                blocks.append(block)
            block = []
        else:
            block.append(line)
    if block:
        blocks.append(block)
    return head, blocks


class Block:
    def __init__(self, lines):
        self.comment = [l for l in lines if l.startswith("--")]
        self.lines = [l for l in lines if not l.startswith("--")]
        m = re.match(r"(?:abbrev )?(?:pub )?(" + WORD + r") : (.*)", self.lines[0]) if self.lines else None
        self.name = m[1] if m else None
        at = 1
        self.type = m[2] if m else ""
        while self.name and at < len(self.lines) and self.lines[at].startswith(" ") :
            self.type += "\n" + self.lines[at]
            at += 1
        self.unfolding = []
        while at < len(self.lines) and self.lines[at].startswith("unfolding"):
            self.unfolding.append(self.lines[at])
            at += 1
        self.body = "\n".join(self.lines[at:])

    def text(self):
        return "\n".join(self.comment + self.lines)


def spec_arguments(body):
    m = re.search(r"tie\.spec\b(.*)$", body, re.S)
    if not m:
        return None
    text, out, depth, cur = m[1], [], 0, ""
    for ch in text:
        if ch == "(":
            depth += 1
        if ch == ")":
            depth -= 1
            if depth < 0:
                break
        if depth == 0 and ch.isspace():
            if cur.strip():
                out.append(cur.strip())
            cur = ""
        else:
            cur += ch
    if cur.strip():
        out.append(cur.strip())
    return out


class Paths:
    """The paths into the known facts of one function."""

    def __init__(self, lts, said):
        self.places = {p[0]: p for p in lts["places"]}
        self.params = lts["params"]
        self.new_names = dict(zip(self.places, lts["places_by_name"]))
        # what is known of the elements of a slice, by the place from which it is read: the step that told it last
        self.typed = {p[0]: {norm(step): var for var, step in t} for p, t in zip(lts["places"], lts["typed"])}
        # what a match told, by the place: the arm's name, and its fields with the older step and path
        self.arms = {p[0]: a for p, a in zip(lts["places"], lts["arms"]) if a}
        self.asked = None
        self.said = said

    def walk(self, place, fields):
        """The fields after the leading `before`s, in today's names, and the place that they lead to."""
        i = 0
        while i < len(fields) and fields[i] == "before":
            before = self.places[place][1] if place in self.places else None
            # a step of the older record that is gone: the path goes on from the start
            if before is not None:
                place = before
            i += 1
        rest = fields[i:]
        if not rest:
            return place, []
        step = norm(rest[0])
        typed = self.typed.get(self.asked, {})
        if step in typed and len(rest) > 1 and rest[1] == "given":
            return place, ["type_inv", typed[step]] + rest[2:]
        at, best = self.asked, None
        while at is not None:
            for field, was, path in self.arms.get(at, (None, 0, []))[2]:
                if norm(was) == step and path and rest[1 : 1 + len(path)] == path and (best is None or len(path) > best[0]):
                    best = (len(path), [self.arms[at][0], field] + rest[1 + len(path) :])
            at = self.places[at][1]
        if best:
            return place, best[1]
        for at in (place, self.asked):
            while at is not None:
                _, before, names, callee, _ = self.places[at]
                if norm(names[0]) == step and names[0]:
                    if len(rest) > 2 and rest[1] == "new" and rest[2].isdigit() and callee in self.params:
                        rest[2] = self.params[callee][int(rest[2])]
                    tail = [{"taken": "true", "left": "false"}.get(f, f) for f in rest[1:2]] + rest[2:]
                    return place, [names[1]] + tail
                at = before
        if step not in ("args", "requires", "ranges", "lifetimes", "well_formed", "ensures", "type_inv"):
            self.said("no step " + rest[0])
        return place, rest

    def turn(self, text, place):
        """The text with its paths in today's names; `c` is at the place."""
        alias = {"c": place}
        self.asked = place
        # lets that only name a place
        let = re.compile(r"let (" + WORD + r") = (" + WORD + r")((?:\.before)*) in\s*")
        done = False
        while not done:
            done = True
            for m in let.finditer(text):
                if m[2] in alias:
                    fields = [f for f in m[3].split(".") if f]
                    to, _ = self.walk(alias[m[2]], fields)
                    alias[m[1]] = to
                    text = text[: m.start()] + text[m.end() :]
                    done = False
                    break
        names = sorted(alias, key=len, reverse=True)
        chain = re.compile(r"(?<![^\s(){},;\[\]])(" + "|".join(re.escape(n) for n in names) + r")((?:\." + FIELD + r")*)(?![^\s(){},;.\[\]])")

        def one(m):
            fields = [f for f in m[2].split(".") if f]
            if not fields:
                return m[0] if m[1] == "c" else "c"
            to, new = self.walk(alias[m[1]], fields)
            if new is None:
                return m[0]
            if not new:
                return "c"
            return "c." + ".".join(new)

        # the condition of `if !b` is told of b itself
        return re.sub(r"\b(?:not_yes|not-no) _ (c\.if-not-" + WORD + r"\.(?:true|false))", r"\1", chain.sub(one, text))

    def helper(self, b):
        """A helper about the facts known at a place."""
        m = re.match(r"\(c : (?:tie|lts)\.(" + WORD + r")((?: (?:invariant|decreases)-" + WORD + r")*)\) → (.*)", b.type, re.S)
        place = m and next((n for n in self.places if norm(n) == norm(m[1])), None)
        params, body = body_of(b)
        if not place or params is None:
            return b.text()
        self.said(f"look: the helper {b.name} speaks of a place")
        head = b.lines[0][: b.lines[0].index(" : ")]
        new = self.new_names[place]
        return "\n".join(b.comment + [f"{head} : (c : goal.{new}) → {self.turn(m[3], place)}"] + b.unfolding + [f"{b.name} {' '.join(params)} ={self.turn(body, place)}"])


def body_of(block):
    """The parameters and the body of a block with one clause `name params = body`."""
    m = re.match(re.escape(block.name) + r"((?: (?!=)" + WORD + r")*?) =(\s)", block.body)
    if not m:
        return None, None
    return m[1].split(), block.body[m.end() - 1 :]


TRIVIAL = re.compile(r"^\s*(search rules|omega arith|tt|cc)\s*$")


def turn_function(crate, folder, names):
    path = os.path.join(folder, "Proof.antt")
    module = os.path.relpath(folder, os.path.join("crates", crate, "proofs")).replace("/", ".")
    key = f"Rattle-{crate}-proofs.{module}.Lts"
    left = []
    if key not in names:
        print(f"left: {path}: no names of {key}")
        return
    lts = names[key]
    with open(path, encoding="utf-8") as f:
        head, blocks = declarations(f.read().split("\n"))
    blocks = [Block(b) for b in blocks]
    spec = next((b for b in blocks if b.name and "tie.spec" in b.body), None)
    if spec is None:
        print(f"left: {path}: no tie.spec")
        return
    args = spec_arguments(spec.body)
    by_name = {b.name: b for b in blocks if b.name}
    is_inv = lambda a: a in by_name and re.match(r"tie\.(invariant|decreases)-", by_name[a].type)
    inv = [a for a in args if is_inv(a)]
    needs = [a for a in args if not is_inv(a)]
    if len(needs) != len(lts["needs"]):
        left.append(f"{len(needs)} arguments for {len(lts['needs'])} goals: {[n[1] for n in lts['needs']]}")
    paths = Paths(lts, left.append)
    keep = [l for l in head if not re.search(r"\.(Statement|Tie|Reads|Lts)(\.\{| as|$)", l)]
    comment = [l for l in keep if l.startswith("--")]
    uses = [l for l in keep if l.startswith("use ")]
    clash = any(l.startswith("use Rattle.") and re.search(r"[{ ]rules[,}]", l) for l in uses)

    def finish(lines):
        text = "\n".join(lines)
        if clash:
            text = text.replace("use borrow.Author.Rules.{rules}", "use borrow.Author.Rules.{rules as tactics}")
            text = re.sub(r"search rules\b", "search tactics", text)
            text = re.sub(r"search \(rules\b", "search (tactics", text)
        return text

    # invariants and measures
    if inv:
        out = comment + uses + [f"use Rattle.{crate}.proofs.{module}.Given as goal", ""]
        loops = lts["loops"]
        for a in inv:
            b = by_name[a]
            kind = "invariant" if b.type.startswith("tie.invariant") else "decreases"
            tail = re.match(r"tie\.(?:invariant|decreases)-(\S+)", b.type)[1]
            at = next((i for i, l in enumerate(loops) if norm(l[0][0]) == norm(tail)), None)
            if at is None and len(loops) == 1:
                at = 0
            params, body = body_of(b)
            if at is None or params is None:
                left.append(f"{a} of {b.type}: no loop of that name in {loops}")
                out += [b.text(), ""]
                continue
            (_, new), variables = loops[at][0], loops[at][1]
            changed = lts["changed"][at]
            want = [("l." if not c else "l.initial.") + v for v, c in zip(variables, changed)] + ["l." + v for v, c in zip(variables, changed) if c]
            if len(want) != len(params):
                left.append(f"{a}: {len(params)} parameters for {want}")
                out += [b.text(), ""]
                continue
            to = dict(zip(params, want))
            names_ = sorted((p for p in to if p != "_"), key=len, reverse=True)
            body = re.sub(r"(?<![^\s(){},;\[\]])(" + "|".join(re.escape(n) for n in names_) + r")(?![^\s(){},;.\[\]])", lambda m: to[m[1]], body)
            out += b.comment + [f"abbrev pub {kind}-{new} : goal.{kind}-{new}"] + b.unfolding + [f"{kind}-{new} l ={body}", ""]
        with open(os.path.join(folder, "Invariants.antt"), "w", encoding="utf-8") as f:
            f.write(finish(out))
    # answers
    answers = []
    for a, need, place in zip(needs, lts["needs"], lts["asked_at"]):
        new = need[1]
        if a in by_name:
            b = by_name[a]
            params, body = body_of(b)
            if params is None:
                left.append(f"{a}: clauses")
                answers += [b.text(), ""]
                continue
            if params and params[0] != "c":
                left.append(f"{a}: its parameter is {params[0]}")
            comment_, unfolding = b.comment, b.unfolding
        else:
            m = re.match(r"\(λ c(?: κs)?\.(.*)\)$", a, re.S)
            if not m:
                left.append(f"an argument {a[:60]}")
                answers += [f"-- left: {new}: {a}", ""]
                continue
            comment_, unfolding, body = [], spec.unfolding, " " + m[1].strip()
        if TRIVIAL.match(body) and not (unfolding and new.startswith("returns")):
            continue
        answers += comment_ + [f"pub {new} : goal.{new}"] + unfolding + [f"{new} c ={paths.turn(body, place[0])}", ""]
    used = set(args) | {spec.name}
    helpers = [b for b in blocks if b.name not in used]
    for b in helpers:
        if re.search(r"\b(tie|lts|reads)\.", b.text()):
            left.append(f"the helper {b.name} speaks of places")
    if answers or helpers:
        out = comment + uses + [f"use Rattle.{crate}.proofs.{module}.Goals as goal", ""]
        for b in helpers:
            out += [paths.helper(b), ""]
        with open(os.path.join(folder, "Answers.antt"), "w", encoding="utf-8") as f:
            f.write(finish(out + answers))
    os.remove(path)
    for l in left:
        print(f"left: {path}: {l}")


def main(argv):
    with open(argv[0]) as f:
        names = json.load(f)
    for crate in argv[1:]:
        for p in sorted(glob.glob(f"crates/{crate}/proofs/**/Proof.antt", recursive=True)):
            turn_function(crate, os.path.dirname(p), names)


if __name__ == "__main__":
    main(sys.argv[1:])
