#!/usr/bin/env python3
"""Writes the static libraries zincpapaya_c and owned_c: the exports of the libraries zincpapaya and owned.

usage: tools/exports.py            writes the files of their src/; `rt fmt` in each folder lays them out
       tools/exports.py --check    writes nothing, and fails where a file differs in more than its layout

For each function of a library whose name begins with zp_ or own_ there is one export: of its name, with its parameters, its result and its clauses, word for word, and a body that calls it.
"""

import os
import re
import sys

# The crate with the exports, the library, what the names begin with, and what the crate is.
CRATES = [
    (
        "zincpapaya_c",
        "zincpapaya",
        "zp_",
        """// The static library of the C interface, which include/zincpapaya.h declares: one export for each function of the crate zincpapaya, of the same name.
// An export has the clauses of the function that it calls, and does nothing else. tools/exports.py writes this crate, and the gate sees that it is as written.""",
    ),
    (
        "owned_c",
        "owned",
        "own_",
        """// The static library that the Rust crate's `Heaps` links: one export for each function of the crate owned that it calls, of the same name.
// An export has the clauses of the function that it calls, and does nothing else. tools/exports.py writes this crate, and the gate sees that it is as written.""",
    ),
]

USE = re.compile(r"^(ghost )?use ([\w.:]+?)(?:\.|::)(?:\{([^}]*)\}|(\w+));$", re.M)


def named(text, name):
    """Whether a text of clauses or of a signature names something that a file brings in."""
    if "◌" in name:
        return name.replace("◌", "") in text
    if not name[0].isalpha():
        return name in text
    return re.search(rf"(?<![\w.'])" + re.escape(name) + r"(?![\w'])", text) is not None


def split(params):
    """The parameters of a list."""
    out, depth, last = [], 0, 0
    for at, char in enumerate(params):
        depth += (char in "([{<") - (char in ")]}>")
        if char == "," and depth == 0:
            out.append(params[last:at].strip())
            last = at + 1
    return [it for it in [*out, params[last:].strip()] if it]


def functions(text, prefix):
    """Each exported function: its name, its lifetimes, parameters and result, and its clauses."""
    named_so = re.findall(rf"^pub fn ({prefix}\w+)", text, re.M)
    read = 0
    for found in re.finditer(rf"^pub fn ({prefix}\w+)(<[^>]*>)?\((.*?)\) -> (\w+)\n(.*?)^{{$", text, re.M | re.S):
        name, lifetimes, params, result, clauses = found.groups()
        if name != named_so[read]:
            break
        read += 1
        yield name, lifetimes or "", split(params), result, clauses
    if read != len(named_so):
        sys.exit(f"exports: {named_so[read]} has no result or no clause, or is written in a form that is not read")


def module(text, library, name, prefix):
    """The file of exports of one module."""
    exports, clauses, types = [], "", ""
    for function, lifetimes, params, result, its in functions(text, prefix):
        given = ", ".join(re.match(r"\w+", it)[0] for it in params)
        exports.append(
            f'#[unsafe(no_mangle)]\npub extern "C" fn {function}{lifetimes}(\n'
            + "".join(f"    {it},\n" for it in params)
            + f") -> {result}\n{its}{{\n    {library}::{name}::{function}({given})\n}}\n"
        )
        names = "|".join(re.match(r"\w+", it)[0] for it in params)
        clauses += re.sub(rf"(?<![\w.'])(?:{names})(?![\w'])", "", its)
        types += " ".join([*params, result, ""])
    ghosts, uses = "", []
    for ghost, path, items, item in USE.findall(text):
        items = [it.strip() for it in (items or item).split(",")]
        kept = [it for it in items if named(clauses if ghost else types, it)]
        if kept and ghost:
            ghosts += f"ghost use {path}.{{{', '.join(kept)}}};\n"
        elif kept:
            uses.append((re.sub(r"^crate\b", library, path), kept))
    own = [it for it in re.findall(r"^pub (?:struct|enum) (\w+)", text, re.M) if named(types, it)]
    if own:
        uses.append((f"{library}::{name}", own))
    uses = "".join(f"use {path}::{kept[0] if len(kept) == 1 else '{' + ', '.join(sorted(kept)) + '}'};\n" for path, kept in sorted(uses))
    about = text.split("\n", 1)[0]
    return "\n".join([f"{about}\n{ghosts}", *([uses] if uses else []), *exports])


def written(crate, library, prefix, about):
    """The files of a crate's src/."""
    src = f"crates/{library}/src"
    names, out = [], {}
    for name in sorted(it[:-3] for it in os.listdir(src) if it.endswith(".rt") and it != "lib.rt"):
        with open(f"{src}/{name}.rt", encoding="utf-8") as f:
            text = f.read()
        # a file of types alone has no exports
        if f"\npub fn {prefix}" in text:
            names.append(name)
            out[f"crates/{crate}/src/{name}.rt"] = module(text, library, name, prefix)
    mods = "".join(f"pub mod {it};\n" for it in names)
    out[f"crates/{crate}/src/lib.rt"] = f"{about}\n#![tactic(auto)]\n\n{mods}"
    return out


def bare(text):
    """A text with no layout."""
    return re.sub(r",(?=[)}\]])", "", re.sub(r"\s+", "", text))


def main():
    check = sys.argv[1:] == ["--check"]
    if sys.argv[1:] and not check:
        sys.exit(__doc__)
    os.chdir(os.path.join(os.path.dirname(os.path.abspath(__file__)), ".."))
    differ = False
    for crate, library, prefix, about in CRATES:
        files = written(crate, library, prefix, about)
        folder = f"crates/{crate}/src"
        there = {f"{folder}/{it}" for it in (os.listdir(folder) if os.path.isdir(folder) else [])}
        for path in sorted(there | set(files)):
            old = open(path, encoding="utf-8").read() if path in there else ""
            new = files.get(path, "")
            if bare(old) == bare(new):
                continue
            if check:
                print(f"tools/exports.py: {path} is not as it is written today", file=sys.stderr)
                differ = True
            elif path in files:
                os.makedirs(folder, exist_ok=True)
                with open(path, "w", encoding="utf-8") as f:
                    f.write(new)
            else:
                os.remove(path)
    sys.exit(1 if differ else 0)


if __name__ == "__main__":
    main()
