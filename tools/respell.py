#!/usr/bin/env python3
"""Brings this repository's own names in specs/ and proofs/ to the spelling of today's Rattle: words in snake case.

usage: python3 tools/respell.py [--table] [ROOT]      run once, after port.py, at the top of the repository

- A definition, lemma, variable or field in camel case, as `numberAt`, gets underscores: `number_at`. So do constructors, as `LeaseRefused` of
  a message: `lease_refused`.
- In the name of a lemma a dash stays where it joins two names of definitions, as in `number-big_endian`. A plain word is joined by `_`, as in
  `part_one`. A record's field and a constructor have no dash.
- A file's imports from a library keep their spelling, as do functions, types and fields of src/.

Each crate is laid out by `rt fmt` afterwards. --table prints old and new names, and writes nothing. It stops where two names would fall together.
"""

import collections
import os
import re
import subprocess
import sys

WORD = re.compile(r"[^\s(){}.;,@\"«»\[\]:`|]+")
CAMEL = re.compile(r"(?<=[a-z0-9])(?=[A-Z])")
SIGNATURE = re.compile(r"^(\s*)(?:(?:abbrev|unfoldable) )?(?:pub )?((?:[^\s:(){}|,;.λ]+ )+?)((?:(?:\{[^}]*\}|\([^)]*\)) )*): ")
HEAD = re.compile(r"^\s*(?:pub )?(data|record) (\S+)")
USE = re.compile(r"^(?:pub )?(?:ghost )?use ([^;{\n]+?)(?:\.\{([^}]*)\})?;?$", re.M)
# Words that the library's names are made of, beside the names that this repository imports.
WORDS = "length take drop append add mul sub div mod pow set map filter replicate lt le eq zero nil cons min max sum not and or some none".split()


# Names that would fall together with others.
BY_HAND = {
    "Keepalive": "keepalive_message",
    "established": "established_lem",
    "is_free": "is_free_lem",
    "too_short": "too_short_lem",
    "wrong_size": "wrong_size_lem",
    "are-bytes": "are_bytes_lem",
}


def files(root, kinds=(".antt", ".rt")):
    for folder, dirs, names in os.walk(os.path.join(root, "crates")):
        dirs[:] = sorted(d for d in dirs if d not in ("out", "must-fail"))
        for name in sorted(names):
            if name.endswith(kinds):
                yield os.path.join(folder, name)


def own_crates(root):
    return {c for c in os.listdir(os.path.join(root, "crates"))}


def imports(text, crates):
    """The names that a file imports from a library."""
    found = set()
    for m in USE.finditer(text):
        path = m[1].split(".")
        if m[2] and not (path[0] == "Rattle" and len(path) > 1 and path[1] in crates):
            for item in m[2].split(","):
                found |= set(item.split(" as ")[0].split()[:1]) | set(item.split()[-1:])
    return found


def declared(text):
    """Names declared in a file, each with its kind: field, constructor or other."""
    kind, depth = None, 0
    for line in text.split("\n"):
        code = re.sub(r"(^|\s)--.*", "", line)
        if not code.strip():
            continue
        indent = len(code) - len(code.lstrip())
        head = HEAD.match(code)
        if head:
            kind, depth = head[1], indent
            yield head[2], head[1]
            continue
        if kind and indent <= depth:
            kind = None
        m = SIGNATURE.match(code)
        if m:
            what = {"record": "field", "data": "constructor"}.get(kind, "other")
            for name in m[2].split():
                if name not in ("pub", "let", "in", "→", "=", "abbrev", "unfoldable", "where", "module", "_"):
                    yield name, what


def snake(part):
    """One part of a name between dashes. A type keeps its capitals."""
    return CAMEL.sub("_", part).lower() if part[:1].islower() or part[:1] == "◌" else part


def camel_words(text):
    for line in text.split("\n"):
        for w in WORD.findall(re.sub(r"(^|\s)--.*", "", line)):
            for part in w.split("-"):
                if part[:1].islower() and CAMEL.search(part) or re.fullmatch(r"◌[a-z]+[A-Z]\w*◌", part):
                    yield w
                    break


def table(root):
    crates = own_crates(root)
    kinds = collections.defaultdict(set)
    camels, library, words = set(), set(), set(WORDS)
    for path in files(root):
        with open(path, encoding="utf-8") as f:
            text = f.read()
        library |= imports(text, crates)
        if not path.endswith(".antt"):
            continue
        camels |= set(camel_words(text))
        if not re.search(r"/proofs/[^/]+/", path):
            for name, kind in declared(text):
                kinds[name].add(kind)
                if "/specs/" in path:
                    words |= {snake(name)} if "-" not in name else set()
    words |= {w for w in library if "-" not in w}
    new = {}
    for name in set(kinds) | camels:
        if name in library:
            continue
        parts = [snake(p) for p in name.split("-")]
        if "constructor" in kinds.get(name, ()) and len(parts) == 1 and name[0].isupper():
            parts = [CAMEL.sub("_", name).lower()]
        plain = kinds.get(name, set()) & {"field", "constructor"} or name not in kinds
        if name in kinds:
            joined = parts[0]
            for before, part in zip(parts, parts[1:]):
                dash = not kinds[name] & {"field", "constructor"} and is_name(before, words) and is_name(part, words)
                joined += ("-" if dash else "_") + part
        else:
            joined = "-".join(parts)
        if joined != name:
            new[name] = joined
    new.update(BY_HAND)
    # "A lemma that would have its function's name gets `_lem`": the dashed one is the lemma.
    olds = collections.defaultdict(set)
    for old, name in new.items():
        olds[name].add(old)
    for name, them in olds.items():
        if len(them) > 1:
            for old in them:
                if "-" in old and old in kinds and any(o in kinds for o in them - {old}):
                    new[old] = name + "_lem"
    return new, kinds, library


def is_name(part, words):
    return part.rstrip("'₀₁₂₃₄0123456789") in words or part in words or part[:1].isupper()


def fall_together(root, new, kinds):
    """The new spellings that two names would have, or that another name has already."""
    seen = collections.defaultdict(set)
    for old, name in new.items():
        seen[name].add(old)
    return {name: olds for name, olds in seen.items() if len(olds & set(kinds)) > 1 or name in kinds and name not in new}


def respelled(path, text, new, library):
    """A file's text with each word of the table turned."""
    taken = imports(text, own_crates_of[0])
    code = path.endswith(".antt")
    clauses = None if code else [braces(text, m) for m in CLAUSE.finditer(text)] + [m.span() for m in GHOST.finditer(text)]
    comments = [m.span() for m in (COMMENT if code else RUST_COMMENT).finditer(text)]
    spans = [m.span() for m in re.finditer(r"`[^`\n]+`", text)]
    inner = re.search(r"/proofs/[^/]+/", path) is not None

    def within(at, places):
        return any(a <= at < b for a, b in places)

    def one(m):
        word, at = m[0], m.start()
        if word not in new or word in taken:
            return word
        behind_dot = text[at - 1 : at] == "."
        if within(at, comments):
            return new[word] if within(at, spans) or CAMEL.search(word) and word[0].islower() else word
        if word[0].isupper() and (behind_dot or not code and not within(at, clauses)):
            return word  # a variant of an enum of src/
        if inner and behind_dot and not CAMEL.search(word):
            return word  # a step of the code
        if not code and not CAMEL.search(word) and not within(at, clauses):
            return word
        return new[word]

    return WORD.sub(one, text)


own_crates_of = [set()]
COMMENT = re.compile(r"(?:^|(?<=\s))--[^\n]*", re.M)
RUST_COMMENT = re.compile(r"//[^\n]*")
GHOST = re.compile(r"ghost\s+use\b[^;]*;")
CLAUSE = re.compile(r"^ *(?:requires|ensures|ghost)\b(?! use)[^{;]*\{", re.M)


def braces(text, m):
    """From a clause's word to the brace that closes it."""
    depth = 0
    for at in range(m.end() - 1, len(text)):
        depth += (text[at] == "{") - (text[at] == "}")
        if depth == 0:
            return m.start(), at + 1
    return m.span()


def main(argv):
    root = ([a for a in argv if not a.startswith("--")] or ["."])[0]
    own_crates_of[0] = own_crates(root)
    new, kinds, library = table(root)
    if "--table" in argv:
        for k in sorted(new):
            print(k, new[k], ",".join(sorted(kinds.get(k, ()))))
        return 0
    together = fall_together(root, new, kinds)
    if together:
        for name in sorted(together):
            print(f"respell: {', '.join(sorted(together[name]))} would be '{name}', as another name is", file=sys.stderr)
        return 1
    for path in files(root):
        with open(path, encoding="utf-8") as f:
            text = f.read()
        turned = respelled(path, text, new, library)
        if turned != text:
            with open(path, "w", encoding="utf-8") as f:
                f.write(turned)
    for crate in sorted(own_crates_of[0]):
        subprocess.run(["rt", "fmt"], cwd=os.path.join(root, "crates", crate), stdout=subprocess.DEVNULL, check=True)
    return 0


if __name__ == "__main__":
    raise SystemExit(main(sys.argv[1:]))
