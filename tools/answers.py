#!/usr/bin/env python3
"""Turns proofs/F/Proof.antt, which walks the code, into Invariants.antt and Answers.antt.

usage: answers.py NAMES CRATE..      NAMES/CRATE/names.json is what `rattle check --generated NAMES/CRATE --old-names` wrote

RESPELLED in the environment names a file with what `tools/respell.py --table` printed before it ran, for the fields of this repository's records.

An answer that is no more than `search rules` or `omega arith` is left out, since the check tries these itself. What isn't understood is said on a line.
"""

import json
import os
import re
import sys

NAME = r"[^\s(){}.;,@\"«»\[\]:`|]+"
TRIVIAL = re.compile(r"(search rules|omega arith|\(?search \(rules\)\)?)\s*$")


def plain(name):
    return re.sub(r"-lem$", "", name.replace("_", "-").lower())


def need_name(name):
    """The older name of a goal as the list has it, in one spelling."""
    name = plain(name)
    name = re.sub(r"^(loop\d*)-holds", r"\1-init", name)
    name = re.sub(r"^(loop\d*)-less", r"\1-smaller", name)
    name = re.sub(r"^(loop\d*)-again", r"\1-preserved", name)
    return name


class Lts:
    def __init__(self, of):
        self.of = of
        self.places = of["places"]
        self.at = {p[0]: i for i, p in enumerate(self.places)}
        self.needs = of["needs"]
        self.said = []

    def goal(self, old):
        for i, (a, b) in enumerate(self.needs):
            if plain(a) == need_name(old):
                return i, b
        for i, (a, b) in enumerate(self.needs):
            if re.sub(r"^(overflow|nonzero)-", "", plain(a)) == re.sub(r"^(overflow|nonzero)-", "", need_name(old)):
                return i, b
        return None

    def parent(self, place):
        return self.places[place][1]

    def near(self, i, goal, fields):
        """As `field`, at the place on the way to the goal that has such a step and is nearest to place i."""
        if fields[0] in ("args", "requires", "ranges", "utf8"):
            return self.field(0, fields)
        way, at = [], goal
        while at is not None:
            way.append(at)
            up = self.parent(at)
            at = self.at[up] if up is not None else None
        here = way.index(i) if i in way else 0
        for k in sorted(range(len(way)), key=lambda k: abs(k - here)):
            new = self.field(way[k], fields)
            if new is not None:
                return new
        return None

    def field(self, i, fields):
        """The new path of fields at place i, whose own step is the first, or None."""
        place = self.places[i]
        name, steps = fields[0], fields[1:]
        bare = name
        # what the types of slices say
        for var, step in self.of["typed"][i] if i < len(self.of["typed"]) else []:
            if plain(step) == plain(bare) and steps[:1] == ["given"]:
                return ["type_inv", var] + steps[1:]
        arm = self.of["arms"][i] if i < len(self.of["arms"]) else None
        best = None
        if arm:
            for new, old, path in arm[2]:
                if plain(old) == plain(bare) and steps[: len(path)] == path:
                    if best is None or len(path) > len(best[1]):
                        best = (new, path)
            if best:
                return [arm[0], best[0]] + steps[len(best[1]) :]
        old, new = place[2]
        if plain(old) == plain(bare):
            if steps:
                for a, b in place[4]:
                    if a == steps[0]:
                        steps = [b] + steps[1:]
                        break
            return [new] + steps
        if i == 0 and bare in ("args", "requires", "ranges", "utf8", "captures"):
            return fields
        if bare in ("type_inv", "auto", "well_formed"):
            return fields
        return None


TOKEN = re.compile(r"(?:" + NAME + r")(?:\.(?:" + NAME + r"))*|\s+|.", re.S)


def turned(text, lts, env):
    """The text of an answer with each path from a place's variable written anew. env: variable -> place."""
    out, args_names = [], set()
    env = dict(env)
    tokens = TOKEN.findall(text)
    k = 0
    while k < len(tokens):
        t = tokens[k]
        m = re.match(r"(" + NAME + r")((?:\." + NAME + r")*)$", t)
        # let a = c.before.before in
        if t == "let":
            j = k + 1
            while j < len(tokens) and tokens[j].isspace():
                j += 1
            name = tokens[j]
            r = j + 1
            while r < len(tokens) and tokens[r].isspace():
                r += 1
            if r < len(tokens) and tokens[r] == "=":
                r += 1
                while r < len(tokens) and tokens[r].isspace():
                    r += 1
                path = tokens[r] if r < len(tokens) else ""
                head = path.split(".")[0]
                nxt = r + 1
                while nxt < len(tokens) and tokens[nxt].isspace():
                    nxt += 1
                if head in env and nxt < len(tokens) and tokens[nxt] == "in" and all(f == "before" for f in path.split(".")[1:]):
                    place = env[head]
                    for _ in path.split(".")[1:]:
                        place = lts.at.get(lts.parent(place) or "", None) if place is not None else None
                    if place is not None:
                        env[name] = place
                        # the binding goes
                        k = nxt + 1
                        while k < len(tokens) and tokens[k].isspace():
                            k += 1
                        continue
                env.pop(name, None)
                if re.search(r"\.args$", path):
                    args_names.add(name)
        if m and m[1] in env:
            place = env[m[1]]
            rest = m[2][1:].split(".") if m[2] else []
            while rest and rest[0] == "before":
                up = lts.parent(place)
                place = lts.at[up] if up is not None else place
                rest = rest[1:]
            if not rest:
                out.append("c")
            else:
                new = lts.near(place, env[m[1]], rest)
                if new is None:
                    lts.said.append(f"{t}: no step {rest[0]} at {lts.places[place][0]}")
                    out.append("c." + ".".join(rest))
                else:
                    if new[0] == "args":
                        new = [new[0]] + [f.replace("-", "_") for f in new[1:2]] + new[2:]
                    out.append("c." + ".".join(FIELDS.get(f, f) for f in new))
        elif m and m[2]:
            if m[1] in args_names:
                out.append(m[1] + m[2].replace("-", "_"))
            else:
                out.append(m[1] + "".join("." + FIELDS.get(f, f) for f in m[2][1:].split(".")))
        else:
            out.append(t)
        k += 1
    return "".join(out)


FIELDS = {}


def units(text):
    """Top level declarations: a run of lines that begins with a signature and goes to the next one."""
    lines = text.split("\n")
    out, cur, started = [], [], False
    sig = re.compile(r"(?:abbrev |unfoldable )?(?:pub )?" + NAME + r"((?: \{[^}]*\}| \([^)]*\))*) : ")
    head = re.compile(r"(use |pub (data|record)|data |record |module |ruleset|open )")
    pending = []
    for l in lines:
        if l.startswith("--") or not l.strip():
            pending.append(l)
            continue
        if (sig.match(l) or head.match(l)) and not l.startswith(" "):
            if cur:
                out.append(cur)
            cur = [p for p in pending if p.strip()] + [l]
            pending = []
        else:
            cur += pending + [l]
            pending = []
    if cur:
        out.append(cur)
    return out


def body_of(code, name):
    """Signature, unfolding line, argument names and body of a declaration of one equation; or None."""
    text = "\n".join(code)
    m = re.match(r"(?P<sig>.*?)\n(?P<unf>(?:unfolding [^\n]*\n(?: +[^\n]*\n)*)?)" + re.escape(name) + r"(?P<args>(?: +[^\s=]+)*) =(?P<body>.*)$", text, re.S)
    return m


def convert(crate_root, crate, path, of, rel):
    with open(path, encoding="utf-8") as f:
        text = f.read()
    lts = Lts(of)
    uses, inv, ans, helpers = [], [], [], []
    head_comment = []
    for u in units(text):
        code = [l for l in u if not l.startswith("--")]
        comment = [l for l in u if l.startswith("--")]
        if not code:
            continue
        if code[0].startswith("use "):
            if comment and not uses:
                head_comment = comment
            uses.append(code[0])
            continue
        m = re.match(r"(abbrev )?(?:unfoldable )?(pub )?(" + NAME + r")(.*?) : (.*)$", code[0])
        name = m[3] if m else None
        if name and "statement M" in code[0]:
            continue
        if m and m[1] and re.match(r"tie\.(invariant|decreases)-", m[5]):
            kind = "invariant" if "invariant-" in m[5] else "decreases"
            which = None
            for (old, new), variables in of["loops"]:
                if plain(old) == plain(re.sub(r"^(invariant|decreases)-", "", m[5].split(".", 1)[1])):
                    which = (new, variables, [x[0][0] for x in of["loops"]].index(old))
            if which is None:
                lts.said.append(f"{name}: no loop {m[5]}")
                helpers.append("\n".join(u))
                continue
            new, variables, index = which
            b = body_of(code, name)
            if not b:
                lts.said.append(f"{name}: body not read")
                helpers.append("\n".join(u))
                continue
            args = b["args"].split()
            changed = of["changed"][index]
            names = {}
            k = 0
            for var, ch in zip(variables, changed):
                if k < len(args):
                    names[args[k]] = f"l.initial.{var}" if ch else f"l.{var}"
                k += 1
            for var, ch in zip(variables, changed):
                if ch:
                    if k < len(args):
                        names[args[k]] = f"l.{var}"
                    k += 1
            if k != len(args):
                lts.said.append(f"{name}: {len(args)} arguments for {k}")
            body = b["body"]

            def rep(mm):
                w = mm[0]
                first, dot, more = w.partition(".")
                if first in names and first != "_":
                    return names[first] + dot + more
                return w

            body = re.sub(r"(?<![^\s(){}\[\],;λ=])" + NAME + r"(?:\." + NAME + r")*", rep, body)
            unf = b["unf"]
            inv.append("\n".join(comment) + ("\n" if comment else "") + f"abbrev pub {kind}-{new} : goal.{kind}-{new}\n{unf}{kind}-{new} l ={body}")
            continue
        if m and re.match(r"tie\.Need-", m[5]):
            need = re.match(r"tie\.Need-(" + NAME + r")", m[5])[1]
            g = lts.goal(name) or lts.goal(need)
            b = body_of(code, name)
            if g is None:
                b0 = b["body"].strip() if b else ""
                if not TRIVIAL.match(b0):
                    lts.said.append(f"{name}: no goal for it")
                    helpers.append("-- " + "\n-- ".join("\n".join(u).split("\n")))
                continue
            index, goal = g
            if not b:
                lts.said.append(f"{name}: body not read")
                helpers.append("-- " + "\n-- ".join("\n".join(u).split("\n")))
                continue
            args = b["args"].split()
            body = b["body"]
            if TRIVIAL.match(body.strip()) and not b["unf"]:
                continue
            place = lts.at[of["asked_at"][index][0]]
            if args and args[-1] == "κs":
                args = args[:-1]
            if not args:
                lts.said.append(f"{name}: no argument")
                continue
            var = "c" if "c" in args else args[0]
            new_body = turned(body, lts, {var: place})
            names = " ".join("c" if a == var else a for a in args)
            ans.append("\n".join(comment) + ("\n" if comment else "") + f"pub {goal} : goal.{goal}\n{b['unf']}{goal} {names} ={new_body}")
            continue
        helpers.append("\n".join(u))
    folder = os.path.dirname(path)
    mod = rel.replace("/", ".")

    def file(kind, items, local):
        body = "\n\n".join(local + items)
        keep = []
        for l in uses:
            if re.search(r"\.Statement\.|\.Tie as tie", l):
                continue
            mm = re.match(r"use ([^{]+)\.\{(.*)\}$", l)
            if mm:
                wanted = []
                for n in mm[2].split(","):
                    n = n.strip()
                    nn = n.split(" as ")[-1].strip()
                    bits = [b for b in nn.split("◌") if b.strip()]
                    if any(re.search(r"(?<![^\s(){}.,;@\[\]])" + re.escape(b) + r"(?![^\s(){}.,;@\[\]])", body) for b in (bits or [nn])):
                        wanted.append(n)
                if wanted:
                    keep.append(f"use {mm[1]}.{{{', '.join(wanted)}}}")
            else:
                alias = re.search(r" as (\S+)$", l)
                a = alias[1] if alias else l.split(".")[-1]
                if re.search(r"(?<![^\s(){}.,;@\[\]])" + re.escape(a) + r"\.", body):
                    keep.append(l)
        goal = "Given" if kind == "Invariants" else "Goals"
        keep.append(f"use Rattle.{crate}.proofs.{mod}.{goal} as goal")
        return "\n".join(head_comment + keep) + "\n\n" + body + "\n"

    if inv:
        with open(os.path.join(folder, "Invariants.antt"), "w", encoding="utf-8") as f:
            f.write(file("Invariants", inv, []))
    if ans or helpers:
        if ans:
            with open(os.path.join(folder, "Answers.antt"), "w", encoding="utf-8") as f:
                f.write(file("Answers", ans, helpers))
    os.remove(path)
    for s in lts.said:
        print(f"{crate} {rel}: {s}")


def main(argv):
    names = argv[0]
    for line in open(os.environ["RESPELLED"], encoding="utf-8") if "RESPELLED" in os.environ else []:
        old, new, *kinds = line.split()
        if kinds and "field" in kinds[0].split(",") and "-" in old:
            FIELDS[old] = new
    for crate in argv[1:]:
        root = os.path.join("crates", crate, "proofs")
        with open(os.path.join(names, crate, "names.json"), encoding="utf-8") as f:
            j = json.load(f)
        for folder, dirs, files in os.walk(root):
            dirs.sort()
            if "Proof.antt" in files:
                rel = os.path.relpath(folder, root)
                of = j.get(f"Rattle-{crate}-proofs.{rel.replace('/', '.')}.Lts")
                if of is None:
                    print(f"{crate} {rel}: no names")
                    continue
                convert(root, crate, os.path.join(folder, "Proof.antt"), of, rel)


if __name__ == "__main__":
    main(sys.argv[1:])
