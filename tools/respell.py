#!/usr/bin/env python3
"""Spells the repository's own names in proofs and clauses in snake case.

usage: tools/respell.py        at the top of the repository, once, right after port.py

A name is the repository's own if a file of specs/ or a lemma file of proofs/ declares it: a definition, a lemma, a field, a constructor, a parameter or a local name, or a name given by 'as'.
In such a name each dash and each capital inside becomes an underscore. A type keeps its upper camel case.
Functions, types, strings, inputs and outputs of src/ keep their names, and so does a name that a file brings in from the library.
In a function's own proof folder the names that Rattle makes stay.
"""

import os
import re
import sys

WORD = r"[^\s(){}\[\].;,@\"«»:=λ]+"
LOWER = re.compile(r"[a-z]")
OLD = re.compile(r"-|[a-z0-9][A-Z]")
USE = re.compile(r"\buse ([^\s;{]+?)(?:\.?(\{[^}]*\}))?(?: as ([^\s;]+))?(?=[;\s]|$)")


# Names that would fall together with another: a lemma or a field that would have its function's name ends in _lem.
APART = {
    "bytesRead": "bytes_read_of",
    **{
        n: n.replace("-", "_") + "_lem"
        for n in """carried-out covers-page entries-left entry-right fixed-id frame-numbers free-bit held-now held-right is-dynamic is-fixed is-none is-source
        journal-right key-chunk key-entry lengths-are lengths-right listed-dynamic load-places load-takes lowest-of note-place on-first page-here page-order page-same
        pair-key pool-skip read-value same-lengths slot-page slot-right slot-within store-places store-takes well-formed word-put word-written bytes-kept""".split()
    },
}


def snake(name):
    if name in APART:
        return APART[name]
    name = re.sub(r"\bgetD\b|getD(?=$|-)", "get_or", name)
    name = re.sub(r"(?<=[a-z0-9])([A-Z]+)", lambda m: "_" + m.group(1).lower(), name)
    return name.replace("-", "_")


def is_old(name):
    return bool(LOWER.match(name)) and bool(OLD.search(name))


def files(root):
    for folder, dirs, names in os.walk(os.path.join(root, "crates")):
        dirs[:] = sorted(d for d in dirs if d not in ("out", "must-fail"))
        for name in sorted(names):
            if name.endswith((".antt", ".rt")):
                yield os.path.join(folder, name)


def in_function_folder(path):
    """Whether an .antt file lies in a folder of proofs/, which is one function's."""
    parts = path.split(os.sep)
    return "proofs" in parts and len(parts) - parts.index("proofs") > 2


def split_antt(text):
    """The pieces of a text, each with whether it is code."""
    for m in re.finditer(r"(?<![^\s(){}.;,])--[^\n]*|\"(?:[^\"\\\n]|\\.)*\"|[^\"\n-]+|.|\n", text):
        piece = m.group(0)
        yield piece, not (piece.startswith("--") and len(piece) > 1 or piece.startswith('"') and len(piece) > 1)


def code_of(text):
    return "".join(p for p, c in split_antt(text) if c)


def foreign_names(text, crates):
    """The names that a file brings in from the library."""
    out = set()
    for m in re.finditer(r"(?m)^(?:pub )?(?:ghost )?use ([^\s;{]+?)\.?(?:\{([^}]*)\})?;?$", text):
        path, items = m.groups()
        steps = path.split(".")
        own = steps[0] == "Rattle" and len(steps) > 1 and steps[1] in crates
        if own:
            continue
        for item in (items or steps[-1]).split(","):
            words = item.split()
            if words:
                out.add(words[0])
    return out


def declared_in(code):
    """The names that a text declares."""
    out = set()
    # signatures, fields and constructors, with marks before them
    for m in re.finditer(rf"(?m)^ *(?:(?:pattern|unfoldable|abbrev|pub|axiom) )*«?({WORD})»?(?: [a-zℓκ ]*)?(?: *\{{[^}}\n]*\}})* :(?!=)", code):
        out.add(m.group(1))
    for m in re.finditer(rf"(?m)^ *(?:(?:pub) )*({WORD}(?: {WORD})*) : ", code):
        out.update(m.group(1).split())
    # parameters in round and curly brackets
    for m in re.finditer(rf"[({{]((?:{WORD} )+): ", code):
        out.update(m.group(1).split())
    # let and λ
    for m in re.finditer(rf"\blet ({WORD})\s*(?::|=)", code):
        out.add(m.group(1))
    for m in re.finditer(rf"λ ((?:{WORD} ?)+)\.", code):
        out.update(m.group(1).split())
    for m in re.finditer(rf"\bas «?({WORD})»?", code):
        out.add(m.group(1))
    # the left sides of equations
    for m in re.finditer(r"(?m)^ *([^\n=]*?) =(?: |$)", code):
        out.update(re.findall(WORD, m.group(1)))
    return out


def main():
    root = os.getcwd()
    with open("crates.txt", encoding="utf-8") as f:
        crates = {re.split(r"[:\s]", l)[0] for l in f if l.strip() and not l.startswith("#")}
    texts = {p: open(p, encoding="utf-8").read() for p in files(root)}
    own, local = set(), {}
    for path, text in texts.items():
        if not path.endswith(".antt"):
            continue
        names = {n for n in declared_in(code_of(text)) if is_old(n)}
        if in_function_folder(path):
            # only helper lemmas and bound names: what Rattle makes is named by the check
            local[path] = names
        else:
            own |= names
    foreign = {p: foreign_names(t, crates) for p, t in texts.items()}
    all_foreign = set().union(*foreign.values())
    print("own:", len(own))
    both = sorted(own & all_foreign)
    print("own and from the library somewhere:", both)
    table = {n: snake(n) for n in own}
    back = {}
    for old, new in table.items():
        back.setdefault(new, []).append(old)
    print("fall together:", {k: v for k, v in back.items() if len(v) > 1})
    if "--check" in sys.argv:
        for path, text in texts.items():
            words = set(re.findall(WORD, code_of(text) if path.endswith(".antt") else text))
            for w in sorted(words):
                if w in table and w not in foreign[path] and table[w] in words:
                    print("meets:", os.path.relpath(path), w, table[w])
        return
    changed = 0
    for path, text in texts.items():
        stay = foreign[path]
        in_folder = in_function_folder(path)

        def turn(m):
            w = m.group(0)
            if w in stay or w not in table:
                return w
            return table[w]

        if path.endswith(".antt"):
            out = []
            for piece, code in split_antt(text):
                if code:
                    out.append(piece)
                elif piece.startswith("--"):
                    # in a comment a name with a capital is one of ours, and one with a dash only in a code span
                    piece = re.sub(WORD, lambda m: turn(m) if "-" not in m.group(0) else m.group(0), piece)
                    piece = re.sub(r"`[^`]*`", lambda s: re.sub(WORD, turn, s.group(0)), piece)
                    out.append("\0" + piece.replace("\n", "") + "\0")
                else:
                    out.append("\0" + piece + "\0")
            joined = "".join(out)
            parts = joined.split("\0")
            for i in range(0, len(parts), 2):
                if in_folder:
                    # a name behind a dot is a field, and one that Rattle makes has a dash
                    parts[i] = re.sub(rf"(?<![.\w-]){WORD}", turn, parts[i])
                    parts[i] = re.sub(rf"(?<=\.){WORD}", lambda m: turn(m) if m.group(0) in fields else m.group(0), parts[i])
                else:
                    parts[i] = re.sub(WORD, turn, parts[i])
            new = "".join(parts)
        else:
            new = turn_rust(text, turn)
        if new != text:
            changed += 1
            with open(path, "w", encoding="utf-8") as f:
                f.write(new)
    print("changed:", changed, "files")


def fields_of(texts):
    out = set()
    for path, text in texts.items():
        if path.endswith(".antt") and not in_function_folder(path):
            for m in re.finditer(rf"(?m)^  +(?:pub )?({WORD}) :", text):
                out.add(m.group(1))
    return out


def turn_rust(text, turn):
    """Clauses, ghost blocks, ghost use items and code spans of comments; names with capitals inside in comments too."""
    out, at = [], 0
    for m in re.finditer(r"(?m)^ *(?:ghost )?use [^;]*;|\b(?:requires|ensures)\b\*?(?: \w+)? ?\{|^ *//[^\n]*|\bghost (?:\w+ )?\{", text):
        if m.start() < at:
            continue
        start, end = m.start(), m.end()
        piece = m.group(0)
        if piece.lstrip().startswith("//"):
            new = re.sub(WORD, lambda w: turn(w) if "-" not in w.group(0) else w.group(0), piece)
            new = re.sub(r"`[^`]*`", lambda s: re.sub(WORD, turn, s.group(0)), new)
        elif piece.endswith("{"):
            depth, i = 1, end
            while depth:
                depth += {"{": 1, "}": -1}.get(text[i], 0)
                i += 1
            end = i
            new = re.sub(WORD, turn, text[start:end])
        elif "ghost" in piece:
            new = re.sub(WORD, turn, piece)
        else:
            new = piece
        out += [text[at:start], new]
        at = end
    out.append(text[at:])
    return "".join(out)


fields = set()
if __name__ == "__main__":
    for _p in files(os.getcwd()):
        if _p.endswith(".antt") and not in_function_folder(_p):
            fields |= fields_of({_p: open(_p, encoding="utf-8").read()})
    main()
