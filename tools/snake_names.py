#!/usr/bin/env python3
"""Brings the repository's own names of specs/ and proofs/ to the spelling of today's Rattle.

usage: tools/snake_names.py          at the top of the repository, right after /opt/rattle/port/port.py

A word (a definition, lemma, constructor, field or local definition) is written with `_` between its parts, a constant in capitals likewise,
and a type in camel case: word-bit -> word_bit, FACT-BYTES -> FACT_BYTES, Counts-right -> CountsRight. Names that are imported from a library
and names that Rattle makes keep their spelling. The pages (README.md, docs/) follow inside backticks, and the must-fail edits where they name
such a word. Two names of a file that would fall together are printed, and nothing is written.
"""
import glob
import os
import re
import sys

WORD = r"[^\s(){}.;,@\"«»\[\]\\:]+"
TOKEN = re.compile(r"--[^\n]*|\"(?:[^\"\\]|\\.)*\"|\.?" + WORD)
DECLARED = re.compile(
    r"^\s*(?:(?:abbrev|unfoldable|pub|data|record|module)\s+)*((?:%s\s+)*%s)\s+(?:\{[^}]*\}\s*|\([^)]*\)\s*)*:\s" % (WORD, WORD)
)
USE = re.compile(r"^\s*(?:ghost |pub )?use\s+([^\s{;]+?)\.?\{([^}]*)\}", re.M)
# what the script before this one garbled
MENDED = {"at_least_lem": "at_least", "value_of_lem": "value_of"}
# names that would fall together with a library's
APART = {"bit-or": "bit_of_or", "bit-and": "bit_of_and", "bit-xor": "bit_of_xor"}


def spelled(name):
    if name in MENDED:
        return MENDED[name]
    if name in APART:
        return APART[name]
    if "-" in name.strip("-") and re.search(r"[A-Za-z0-9'!]-[A-Za-z0-9]", name):
        if name[0].isupper() and not name.isupper():
            first, *rest = name.split("-")
            return first + "".join(it[:1].upper() + it[1:] for it in rest)
        name = name.replace("getD-", "get_or-")
        name = name.replace("-", "_")
    if name[0].islower():
        name = re.sub(r"(?<=[a-z])([A-Z])(?=[a-z_]|$)", lambda it: "_" + it.group(1).lower(), name)
    return name


def below(*ends):
    for end in ends:
        yield from sorted(
            it for it in glob.glob("crates/**/*" + end, recursive=True) if "/out/" not in it
        )


def read(path):
    with open(path, encoding="utf-8", newline="") as it:
        return it.read()


def own_crates():
    return {it for it in os.listdir("crates") if os.path.isdir("crates/" + it)}


def imports(text, own):
    """Returns the names that a file's use lines bring from a library, and those from a crate of the repository."""
    library, ours = set(), set()
    for module, names in USE.findall(text):
        parts = module.split(".")
        at = ours if parts[0] == "Rattle" and len(parts) > 1 and parts[1] in own else library
        for it in names.split(","):
            at.update(it.split())
    return library, ours


def declared(text, of_a_function):
    out = set()
    for line in text.splitlines():
        line = re.sub(r"(^|\s)--.*", "", line)
        at = DECLARED.match(line)
        if at:
            rest = line[at.end():].strip()
            if of_a_function and (rest.startswith(("tie.", "statement", "goal.")) or "→ statement" in rest):
                continue
            out.update(at.group(1).split())
    return out


def main():
    own = own_crates()
    texts = {it: read(it) for it in below(".antt", ".rt")}
    all_declared, of_file = set(), {}
    for path, text in texts.items():
        if path.endswith(".antt"):
            of_file[path] = declared(text, "/proofs/" in path and os.path.basename(path) == "Proof.antt")
            if os.path.basename(path) != "Proof.antt":
                all_declared |= of_file[path]
    turn = {it: spelled(it) for it in all_declared if spelled(it) != it}
    # for pages and edits: also what the script before this one turned
    turn[None] = all_declared | set(turn.values())
    bad, written, out = [], 0, {}
    for path, text in texts.items():
        library, ours = imports(text, own)
        here = of_file.get(path, set())
        walk = os.path.basename(path) == "Proof.antt"
        code = path.endswith(".rt")

        def new(token):
            dot, name = ("." if token.startswith(".") else ""), token.lstrip(".")
            if name in here and spelled(name) != name:
                return dot + spelled(name)
            if name not in turn:
                return token
            if name in library and name not in here:
                return token
            if dot:
                return dot + turn[name]
            if (code or walk) and name not in ours:
                return token
            return turn[name]

        before, after, result, at = {}, {}, [], 0
        for it in TOKEN.finditer(text):
            t = it.group(0)
            if t.startswith(("--", '"')):
                continue
            n = new(t)
            # in a path of modules, and in code, a function may have the name of a definition, but no parameter may
            in_path = t.startswith(".") or text[it.end():it.end() + 1] == "."
            if not (in_path and walk) and not (code and n == t and not re.search(r"\b%s: " % re.escape(t), text)):
                after.setdefault(n.lstrip("."), set()).add(t.lstrip("."))
            if n != t:
                result.append(text[at:it.start()] + n)
                at = it.end()
        turned = "".join(result) + text[at:]
        # comments name words too
        turned = re.sub(
            r"(--|//)([^\n]*)",
            lambda c: c.group(1) + re.sub(r"`([^`]*)`", lambda q: "`" + words(q.group(1), turn) + "`", c.group(2)),
            turned,
        )
        for n, olds in after.items():
            if len(olds) > 1:
                bad.append(f"{path}: {sorted(olds)} fall together as {n}")
        out[path] = turned
    for path in below(".edit"):
        texts[path] = read(path)
        out[path] = words(texts[path], turn, edits=True)
    for path in ["README.md", *sorted(glob.glob("docs/*.md"))]:
        if os.path.basename(path).startswith("PORT"):
            continue
        texts[path] = read(path)
        out[path] = re.sub(r"`([^`\n]*)`", lambda q: "`" + words(q.group(1), turn) + "`", texts[path])
    if bad:
        print("\n".join(bad))
        return 1
    for path, text in out.items():
        if text != texts[path]:
            written += 1
            with open(path, "w", encoding="utf-8", newline="") as it:
                it.write(text)
    print(f"{len(turn) - 1} names, {written} files")
    return 0


def words(text, turn, edits=False):
    def one(it):
        token = it.group(0)
        dot, name = ("." if token.startswith(".") else ""), token.lstrip(".")
        if name not in turn and spelled(name) in turn[None]:
            return dot + spelled(name)
        return dot + turn[name] if name in turn else token

    if edits:
        return "".join(
            re.sub(r"\.?" + WORD, one, line) if line.startswith(("old:", "new:")) else line
            for line in text.splitlines(keepends=True)
        )
    return re.sub(r"\.?" + WORD, one, text)


if __name__ == "__main__":
    sys.exit(main())
