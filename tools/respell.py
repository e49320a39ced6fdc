#!/usr/bin/env python3
"""Brings the names of this repository's own definitions and lemmas to today's spelling.

usage: tools/respell.py [--list]

Run once, at the top, on what port.py wrote. A definition in camel case gets snake case (`partStep`: `part_step`). In a lemma's name a
dash stays where it joins the names of two definitions (`length-window`); a plain word hangs on by `_` (`pick_false`). Types, modules
and the names of Rust's side keep theirs. The choice by a test gets a name of its own, `when b then x else y`, since `if` is the library's. Writes specs/ and proofs/, and of src/ the clauses and the `ghost use` lines.
--list writes nothing, and prints each name with its new one. Names that fall together are printed, and then nothing is written;
--dry does that alone.
"""
import collections
import glob
import re
import sys

TOKEN = re.compile(r"[^\s(){}\[\],;.:\"`]+")
SIGN = re.compile(
    r"^(\s*)((?:unfoldable |pattern |abbrev |axiom |pub )*)(record |data |ruleset )?(?:pub )?"
    r"([^\s:{}()\[\],;.]+)((?: +[^\s:{}()\[\],;.=]+)*)\s*(?:\{[^{}:]*\}\s*)?(?:\([^():]*:.*)?(:|=)(\s|$)"
)


def files(*tops):
    return sorted(it for top in tops for end in ("antt", "rt") for it in glob.glob(f"crates/*/{top}/**/*.{end}", recursive=True))


def read(path):
    with open(path, encoding="utf-8") as f:
        return f.read()


def declared():
    """Each own name of specs/ and proofs/ with its marks: 'def' where its body opens, 'lemma' elsewhere."""
    found = {}
    for path in files("specs", "proofs"):
        for line in read(path).split("\n"):
            if line.lstrip().startswith(("--", "use ", "mod ", "pub mod ", "pub use ", "module ", "let ", "in ", "λ ", "infix")):
                continue
            m = SIGN.match(line)
            if not m or (m.group(7) == "=" and m.group(3) is None):
                continue
            kind = "def" if re.search("unfoldable|abbrev", m.group(2)) or m.group(3) else "lemma"
            for name in [m.group(4)] + m.group(5).split():
                if re.match(r"^[a-z]", name):
                    found.setdefault(name, set()).add((kind, path))
    return found


def imported():
    """Names that some file takes from a library that is not of this repository, with those files."""
    own = {c.split("/")[1] for c in glob.glob("crates/*/src")}
    found = collections.defaultdict(set)
    for path in files("specs", "proofs", "src"):
        for m in re.finditer(r"^\s*(?:pub )?(?:ghost )?use ([^\s{}]+)\.\{([^{}]*)\}", read(path), re.M):
            parts = m.group(1).split(".")
            if parts[0] == "Rattle" and parts[1] in own:
                continue
            for name in m.group(2).split(","):
                found[name.split(" as ")[0].strip()].add(path)
    return found


def snake(name):
    return re.sub(r"(?<=[a-z0-9'])([A-Z])", lambda m: "_" + m.group(1), name).lower()


def joined(name, names):
    """A lemma's name in parts: the longest runs of words that are a definition's name; a dash between two such, `_` elsewhere."""
    words, parts, i = name.split("-"), [], 0
    while i < len(words):
        for j in range(len(words), i, -1):
            run = "_".join(snake(w) for w in words[i:j])
            if run.rstrip("'") in names or j == i + 1:
                parts.append((run, run.rstrip("'") in names))
                i = j
                break
    out = parts[0][0]
    for (_, before), (run, here) in zip(parts, parts[1:]):
        out += ("-" if before and here else "_") + run
    return out


def renaming():
    own, others = declared(), imported()
    aliases = {a for path in files("specs", "proofs") for a in re.findall(r" as ([a-z]\w*[A-Z]\w*)", read(path))}
    camel = {n for n in set(own) | aliases if re.match(r"^[a-z][^-]*[A-Z]", n) and "◌" not in n}
    names = {snake(n) for n, marks in own.items() if any(k == "def" for k, _ in marks) and "-" not in n and len(n) > 2}
    names |= {n for n in others if re.match(r"^[a-z][a-z_]*$", n) and n not in ("code", "not", "on", "rules", "arith", "cases", "rel")}
    new = {n: snake(n) for n in camel}
    for n in own:
        if "-" not in n:
            continue
        # a definition, and the statement of a public function's promise, which has the function's name
        if any(k == "def" for k, _ in own[n]) or n.endswith("-once"):
            new[n] = n.replace("-", "_")
            continue
        spec = re.match(r"^(.*)-spec$", n)
        new[n] = (spec.group(1).replace("-", "_") + "_spec") if spec and any("/proofs/" in p for _, p in own[n]) else joined(n, names)
    # a lemma that would have its function's name gets `_lem`
    defs = {new.get(n, n) for n, marks in own.items() if any(k == "def" for k, _ in marks)}
    defs |= {new[n] for n in camel}
    for n, marks in own.items():
        b = new.get(n, n)
        if n not in camel and all(k == "lemma" for k, _ in marks) and b in defs and not b.endswith("_spec"):
            new[n] = (b[:-1] + "_lem'") if b.endswith("'") else b + "_lem"
    return {a: b for a, b in new.items() if a != b}, own, others


def clauses(text):
    """Of a .rt file the spans that hold ghost text: `ghost use` lines, and the braces of clauses."""
    spans = [m.span() for m in re.finditer(r"^ghost use [^;]*;", text, re.M)]
    for m in re.finditer(r"\b(?:requires|ensures|invariant|ghost(?! use)|measure)\b[^{}\n;]*\{", text):
        depth, i = 1, m.end()
        while depth:
            depth += {"{": 1, "}": -1}.get(text[i], 0)
            i += 1
        spans.append((m.end() - 1, i))
    return spans


def turned(text, new, skip):
    def one(m):
        token, before = m.group(0), text_now[: m.start()]
        if token not in new or token in skip:
            return token
        # behind a dot stands a member; it is ours where a module or a value's own field stands before it
        named = re.search(r"(?<![\w.'])([a-z]\w*)\.$", before)
        if before.endswith(".") and not (named and named.group(1) in aliases) and not re.search(r"(?:^|[\s({\[,])(?:Rattle\.)?[A-Za-z_.0-9]*[A-Z][A-Za-z0-9]*\.$", before) and token not in FIELDS:
            return token
        return new[token]

    out, text_now = [], text
    aliases = set(re.findall(r"^use [^\n{]* as ([a-z]\w*)$", text, re.M)) - {"tie", "goal"}
    for line in text.split("\n"):
        text_now = line
        # in a comment a word with a dash may be plain English, but in backquotes it is a name
        plain = line.lstrip().startswith("--")
        turn = TOKEN.sub(lambda m: m.group(0) if plain and "-" in m.group(0) else one(m), line)
        out.append(re.sub("`([^`]*)`", lambda m: "`" + TOKEN.sub(lambda t: new.get(t.group(0), t.group(0)), m.group(1)) + "`", turn) if plain else turn)
    return "\n".join(out)


def when(text):
    """The choice by a test under its new name."""
    return re.sub(r"(?<![\w.'\-◌])if(?=\s)", "when", text).replace("if◌then◌else◌", "when◌then◌else◌")


def own_fields():
    found = set()
    for path in files("specs", "proofs"):
        inside = False
        for line in read(path).split("\n"):
            if re.match(r"^\s*(?:pub )?record .* where$", line):
                inside = True
            elif inside and re.match(r"^\s+[^\s:]+(?: [^\s:]+)* :", line) and not line.lstrip().startswith("--"):
                found |= set(line.split(":")[0].split())
            elif inside and line.strip() and not line.startswith(" "):
                inside = False
    return found


FIELDS = set()


def main():
    FIELDS.update(own_fields())
    new, own, others = renaming()
    if "--list" in sys.argv:
        for a, b in sorted(new.items()):
            print(a, b)
        return 0
    taken, bad = {}, 0
    for path in files("specs", "proofs", "src"):
        text = read(path)
        plain = re.sub(r"^\s*(--|//).*$", "", text, flags=re.M)
        tokens = {m.group(0) for m in TOKEN.finditer(plain) if plain[m.start() - 1] != "."}
        if path.endswith(".rt"):
            ghost = "\n".join(text[a:b] for a, b in clauses(text))
            rust = set(re.findall(r"\w+", re.sub(r"^\s*//.*$", "", text, flags=re.M))) - set(re.findall(r"\bfn (\w+)", text))
            used = {t for t in TOKEN.findall(ghost) if t in new}
            for t in sorted(used):
                if new[t] in rust and new[t] not in TOKEN.findall(ghost):
                    print(f"a word of Rust's side: {path}: {t} {new[t]}")
        else:
            used = {t for t in tokens if t in new}
            for t in sorted(used):
                if new[t] in tokens and new[t] not in new:
                    print(f"falls together: {path}: {t} {new[t]}")
                    bad = 1
        both = collections.defaultdict(set)
        for t in used:
            both[new[t]].add(t)
        for b, a in both.items():
            if len(a) > 1:
                print(f"falls together: {path}: {sorted(a)} {b}")
                bad = 1
    if bad or "--dry" in sys.argv:
        return 1
    for path in files("specs", "proofs", "src"):
        text = read(path)
        skip = {n for n, where in others.items() if path in where}
        if path.endswith(".rt"):
            for a, b in sorted(clauses(text), reverse=True):
                text = text[:a] + when(turned(text[a:b], new, skip)) + text[b:]
            # a comment that cites a definition follows it
            text = re.sub(r"//.*$", lambda m: TOKEN.sub(lambda t: new[t.group(0)] if t.group(0) in new and "-" not in t.group(0) else t.group(0), m.group(0)), text, flags=re.M)
        else:
            code = re.compile(r"^(?!\s*--)(.*?)(?= -- |$)", re.M)
            text = code.sub(lambda m: when(m.group(0)), turned(text, new, skip))
        if text != read(path):
            with open(path, "w", encoding="utf-8") as f:
                f.write(text)
    return 0


if __name__ == "__main__":
    sys.exit(main())
