#!/usr/bin/env python3
"""Moves the laws from specs/ to proofs/, and rewrites what names their places.

usage: tools/move_laws.py

Run at the top; a second run changes nothing. specs/ is what has to be believed: definitions and the statements that cite them. What is proved of
them stands in proofs/: all of specs/Laws/, and each page that imports a law of its own crate, since a file of specs/ may not name its own crate's
proofs/. So an edit of a definition that makes laws fall is refused by those laws, and no page of specs/ is left that can't be read. STAYS are the
laws that a definition needs which contracts of its own crate cite. Of the pages of SPLIT the definitions stay, and what is proved of them goes to a
page of the same name in proofs/.
"""
import glob
import os
import re
import sys

STAYS = {("files", "Laws.File"), ("files", "Laws.Kept")}
# what README.md and docs/PROMISES.md say of the places
WORDS = {
    "`specs/Laws.antt`, `specs/Laws/` and `specs/Facts.antt` need no belief: laws are proved, and facts are what functions hand to each other.": "`specs/Facts.antt` needs no belief: facts are what functions hand to each other. Nor does `specs/Laws/` of `files`: laws are proved.",
    "`proofs/` holds the proofs. The prover reads them; you need not.": "`proofs/` holds the proofs, and in pages of its own, most in `proofs/Laws/`, the laws that are proved of the definitions, theorems too. The prover reads them; you need not.",
    "Not `specs/Laws.antt` and `specs/Laws/`, which are proved, and not `specs/Facts.antt`, what functions hand to each other;": "Not `specs/Laws/` of `files`, which is proved, and not `specs/Facts.antt`, what functions hand to each other;",
}
SPLIT = [("sheet", it) for it in ("Premise", "Second", "Sheet", "Tight")]
PATH = re.compile(r"Rattle\.(\w+)\.specs\.([A-Z]\w*(?:\.[A-Z]\w*)*)")


def read(path):
    with open(path, encoding="utf-8") as f:
        return f.read()


def write(path, text):
    os.makedirs(os.path.dirname(path), exist_ok=True)
    with open(path, "w", encoding="utf-8") as f:
        f.write(text)


def pages(part):
    """The pages of specs/ or proofs/ by crate and name (`Laws.Keys`), without the trees' own files."""
    found = {}
    for path in sorted(glob.glob(f"crates/*/{part}/[A-Z]*.antt") + glob.glob(f"crates/*/{part}/Laws/[A-Z]*.antt")):
        crate, name = re.match(rf"crates/(\w+)/{part}/(.*)\.antt$", path).groups()
        if name not in ("Lib", "Laws"):
            found[crate, name.replace("/", ".")] = path
    return found


def cited(text, specs):
    """The pages of specs/ that a text names."""
    found = set()
    for crate, name in PATH.findall(text):
        parts = name.split(".")
        for n in range(len(parts), 0, -1):
            if (crate, ".".join(parts[:n])) in specs:
                found.add((crate, ".".join(parts[:n])))
                break
    return found


def to_move(specs):
    uses = {it: cited(read(path), specs) for it, path in specs.items()}
    moved = {it for it in specs if it[1].startswith("Laws.")} - STAYS
    grows = True
    while grows:
        more = {it for it in specs if it not in moved and any(use in moved and use[0] == it[0] for use in uses[it])}
        grows = bool(more)
        moved |= more
    if moved & STAYS:
        sys.exit(f"a law that stays names one that goes: {sorted(moved & STAYS)}")
    # what goes is no page that a contract of its own crate needs
    for path in sorted(glob.glob("crates/*/src/**/*.rt", recursive=True)):
        crate, need, new = path.split("/")[1], set(), cited(read(path), specs)
        while new:
            need |= new
            new = {use for it in new for use in uses[it]} - need
        if any(it[0] == crate and it in moved for it in need):
            sys.exit(f"{path} needs {sorted(it for it in need if it[0] == crate and it in moved)}")
    return moved


def tree(path, gone=(), come=(), comment=""):
    """Drops and adds `pub mod` lines of a tree's own file; an empty one goes."""
    lines = read(path).splitlines() if os.path.exists(path) else []
    lines = [it for it in lines if not any(it == f"pub mod {name}" for name in gone)]
    lines += [f"pub mod {name}" for name in come if f"pub mod {name}" not in lines and f"mod {name}" not in lines]
    if comment and any("mod " in it for it in lines):
        lines = [comment] + [it for it in lines if not it.startswith("--")]
    if any(it.startswith(("pub mod ", "mod ")) for it in lines):
        write(path, "\n".join(lines) + "\n")
    elif os.path.exists(path):
        os.remove(path)


def move(specs, moved):
    for crate in sorted({it[0] for it in moved}):
        here = f"crates/{crate}"
        old = read(f"{here}/specs/Laws.antt").splitlines() if os.path.exists(f"{here}/specs/Laws.antt") else []
        order = [it.split()[-1] for it in old if "mod " in it]
        names = sorted((name for c, name in moved if c == crate), key=lambda n: order.index(n[5:]) if n.startswith("Laws.") else -1)
        for name in names:
            to = f"{here}/proofs/{name.replace('.', '/')}.antt"
            if os.path.exists(to):
                sys.exit(f"{to} is there already")
            write(to, read(specs[crate, name]))
            os.remove(specs[crate, name])
        laws, others = [n[5:] for n in names if n.startswith("Laws.")], [n for n in names if not n.startswith("Laws.")]
        comment = next((it for it in old if it.startswith("--")), "")
        if laws:
            tree(f"{here}/proofs/Laws.antt", come=laws, comment=comment)
            tree(f"{here}/specs/Laws.antt", gone=laws)
            if os.path.isdir(f"{here}/specs/Laws") and not os.listdir(f"{here}/specs/Laws"):
                os.rmdir(f"{here}/specs/Laws")
        left = [] if os.path.exists(f"{here}/specs/Laws.antt") else ["Laws"]
        tree(f"{here}/specs/Lib.antt", gone=others + left)
        tree(f"{here}/proofs/Lib.antt", come=(["Laws"] if laws else []) + others)


def blocks(text):
    """A page's head (its comment), its `use` lines, and its blocks; a block of comments alone belongs to the next."""
    head, uses, found, held = [], [], [], ""
    for block in text.rstrip("\n").split("\n\n"):
        lines = block.split("\n")
        if not found and any(it.startswith(("use ", "pub use ")) for it in lines):
            head += [it for it in lines if it.startswith("--")]
            uses += [it for it in lines if it.startswith(("use ", "pub use "))]
            continue
        if all(it.startswith("--") for it in lines):
            held += block + "\n\n"
            continue
        found.append(held + block)
        held = ""
    return head, uses, found


def is_used(name, body):
    name = name.split(" as ")[-1].strip()
    tokens = set(re.findall(r"[^\s(){}\[\],;.:]+", re.sub(r"(?m)^--.*$", "", body))) | ({"[]"} if "[]" in body else set())
    return name in tokens or ("◌" in name and all(it in tokens for it in name.split("◌") if it))


def needed(uses, body):
    found = []
    for line in uses:
        m = re.match(r"(.*\.\{)(.*)(\})$", line)
        names = [it for it in m.group(2).split(", ") if is_used(it, body)]
        if names:
            found.append(m.group(1) + ", ".join(names) + m.group(3))
    return found


def split(crate, page):
    """Has a page of specs/ keep its definitions, and gives what is proved of them to the page of that name in proofs/."""
    path, to = f"crates/{crate}/specs/{page}.antt", f"crates/{crate}/proofs/{page}.antt"
    if not os.path.exists(path):
        return
    head, uses, found = blocks(read(path))
    # a table of rows is a definition too, and is opened by its name
    found = [re.sub(r"(?m)^pub (\S+ : List Row)$", r"unfoldable pub \1", it) for it in found]
    marks = r"(?m)^(?:pub )?(?:abbrev|unfoldable|data|record)\b"
    kept, proved = [it for it in found if re.search(marks, it)], [it for it in found if not re.search(marks, it)]
    if not proved:
        return
    if os.path.exists(to):
        sys.exit(f"{to} is there already")
    kept = [re.sub(r"(?m)^(abbrev|unfoldable) (?!pub )", r"\1 pub ", it) for it in kept]
    named = [m.group(1) for it in kept for m in [re.search(r"(?m)^(?:abbrev|unfoldable) pub (\S+) :", it)] if m]
    body = "\n\n".join(proved)
    own = [f"use Rattle.{crate}.specs.{page}.{{{', '.join(it for it in named if is_used(it, body))}}}"]
    write(path, "\n".join(head + needed(uses, "\n\n".join(kept))) + "\n\n" + "\n\n".join(kept) + "\n")
    others = needed(uses, body)
    write(to, "\n".join(["-- What is proved of the page of this name in specs/."] + others + own) + "\n\n" + body + "\n")
    tree(f"crates/{crate}/proofs/Lib.antt", come=[page])
    print("split", crate, page)


def renamed(specs, proofs):
    """Rewrites each path to a page that is in proofs/ and not in specs/: modules in code and edits, files in edits, pages and tests."""
    gone = {it for it in proofs if it not in specs}

    def module(m):
        parts = m.group(2).split(".")
        for n in range(len(parts), 0, -1):
            it = (m.group(1), ".".join(parts[:n]))
            if it in specs:
                return m.group(0)
            if it in gone:
                return f"Rattle.{m.group(1)}.proofs.{m.group(2)}"
        return m.group(0)

    def file(m):
        it = (m.group(1), m.group(2).replace("/", "."))
        return f"crates/{m.group(1)}/proofs/{m.group(2)}.antt" if it in gone else m.group(0)

    def remark(crate, line):
        """What a comment says of a page of its own crate that went."""
        line = re.sub(r"(?<![\w/.])((?:Laws/)?[A-Z]\w*)\.antt", lambda m: f"proofs/{m.group(0)}" if (crate, m.group(1).replace("/", ".")) in gone else m.group(0), line)
        return re.sub(r"(?<![\w/.])Laws/(?!\w)", "proofs/Laws/", line) if any(it[0] == crate and it[1].startswith("Laws.") for it in gone) else line

    code = [it for end in ("antt", "rt") for part in ("src", "specs", "proofs") for it in glob.glob(f"crates/*/{part}/**/*.{end}", recursive=True)]
    edits = glob.glob("crates/*/must-fail/*.edit")
    words = ["README.md"] + glob.glob("docs/**/*.md", recursive=True) + glob.glob("tests/*.test")
    for path in sorted(code + edits + words):
        text = new = read(path)
        if not path.startswith("docs/CHANGES/"):
            new = re.sub(r"crates/(\w+)/specs/([A-Z][\w/]*)\.antt", file, new)
        new = PATH.sub(module, new)
        if re.match(r"crates/\w+/(src|specs)/", path):
            crate = path.split("/")[1]
            new = re.sub(r"(?m)^.*(?:--|//) .*$", lambda m: remark(crate, m.group(0)), new)
        if path.endswith(".edit"):
            crate = path.split("/")[1]
            new = re.sub(r"(?m)^file: specs/([A-Z][\w/]*)\.antt$", lambda m: f"file: proofs/{m.group(1)}.antt" if (crate, m.group(1).replace("/", ".")) in gone else m.group(0), new)
        if path.startswith("tests/"):
            new = re.sub(r"(?<![\w/])(\w+)/specs/Laws(?![\w/])", lambda m: f"{m.group(1)}/proofs/Laws" if (m.group(1), "Laws") in {(c, n.split(".")[0]) for c, n in gone} else m.group(0), new)
        for old, said in WORDS.items():
            new = new.replace(old, said) if path.endswith(".md") else new
        if new != text:
            write(path, new) if "/" in path else open(path, "w", encoding="utf-8").write(new)


def main():
    specs = pages("specs")
    moved = to_move(specs)
    move(specs, moved)
    for it in SPLIT:
        split(*it)
    renamed(pages("specs"), pages("proofs"))
    for it in sorted(moved):
        print("moved", *it)
    return 0


if __name__ == "__main__":
    sys.exit(main())
