#!/usr/bin/env python3
"""Spells the definitions, lemmas, fields and cases of this repository's antt files in snake case: boxOf as box_of, walk-demand as walk_demand.

usage: tools/spell.py [--check]        at the top of the repository, once, after the kit's port.py

What is turned: each name that a file of crates/*/specs or crates/*/proofs declares, where a file declares it or takes it from a file of this
repository, and in the code spans of the documents. What stays: a name that a file takes from a library, a name that a proof of a function
declares for itself, a dash before a sign (<F-≤F_trans), operators, functions of src/, strings, types and modules. --check writes nothing.
Lines 'meets:' name a new spelling that stood in a file already.
"""

import os
import re
import sys

WORD = re.compile(r'[^\s(){}.;,@"«»]+')
QUIET = re.compile(r'"(?:[^"\\\n]|\\.)*"|(?<![^\s(){}.;,@"«»])--[^\n]*|//[^\n]*', re.S)
SPAN = re.compile(r"`[^`\n]+`")
USE = re.compile(r"\buse\s+([^\s;{]+?)\.?(?:\{([^}]*)\}|(?=[\s;]))", re.S)
HEAD = re.compile(r"^((?:(?:unfoldable|abbrev|opaque|pub|record|data|ruleset)\s+)*)([^\s(){}.;,@\"]+)(?=[\s(:{])(.*)$")
FIELD = re.compile(r"^  +(?:(?:unfoldable|abbrev|opaque|pub)\s+)*([^\s(){}.;,@\"]+) *:(?=\s|$)")
WORDS = {"infixl", "infixr", "infix", "mod", "unfolding", "syntax", "open", "use", "module", "mutual"}
CLAUSE = re.compile(r"(?:requires|ensures)\s*\*?\s*(?:\w+\s*)?\{|ghost\s*(?:\w+\s*(?::\s*(?:owns\s*)?|=\s*))?\{")


# Names that would fall together with another: a lemma that would have its definition's name, and fields that say what a field of src/ is.
APART = {
    **{n: n.replace("-", "_") + "_lem" for n in "all-ordered centre-level greatest-along greatest-of least-along least-of level-over one-cube sound-cells step-up second-order".split()},
    "bracket-of": "bracket_of_lem",
    "chain-end": "chain_end_lem",
    "cut-of": "cut_of_lem",
    "is-zero": "is_zero_lem",
    "level-of": "level_of_lem",
    "state-word": "state_word_lem",
    "tail-cosine": "tail_cosine_is",
    "tail-sine": "tail_sine_is",
    "three-of": "three_of_lem",
    "two-pi": "two_pi_is",
}
# Names that a file declares in a block of its own, where they would hide a definition.
LOCAL = {"crates/calls/proofs/TickLaws.antt": {"all_near": "near_all"}, "crates/interval/proofs/Grid.antt": {"step_down": "down_stepped"}}


def snake(name):
    if name in APART:
        return APART[name]
    words = re.sub(r"(?<=[a-z0-9])([A-Z])", lambda m: "_" + m[1].lower(), name) if not name[:1].isupper() else name
    return re.sub(r"(?<=\w)-(?=[a-zμ])", "_", words)


def files(top, *endings):
    for folder, folders, names in os.walk(top):
        folders[:] = sorted(f for f in folders if f not in ("out", "target", ".git"))
        yield from (os.path.join(folder, n) for n in sorted(names) if n.endswith(endings))


def module(path):
    """crates/tree/specs/Box.antt is Rattle.tree.specs.Box."""
    parts = path[:-5].split("/")
    return ".".join(["Rattle", *parts[1:]])


def declared(text):
    """The names that a file of definitions or lemmas declares, with the fields and cases of its records and what stands in its modules."""
    names = set()
    for line in text.split("\n"):
        head = HEAD.match(line)
        if head and head[2] not in WORDS and not line.startswith("--"):
            if re.search("record|data", head[1]) or " : " in head[3] or head[3].rstrip().endswith(" :"):
                names.add(head[2])
        elif FIELD.match(line):
            names.add(FIELD.match(line)[1])
    return names


def parts(name):
    """An operator's words: orElse of the operator that or-else stands for, beside its whole name."""
    return {name} | {p for p in name.split("◌") if p and snake(p) != p and re.match(r"[a-z]", p)}


def is_own(path):
    return path.startswith("Rattle.") and path.split(".")[1] in CRATES


def own_of(text, table, mine):
    """Which names of the table are this repository's own in a file, and which a library's."""
    own, theirs, heads = set(mine), set(), set()
    for path, items in USE.findall(text):
        names = set(WORD.findall(items)) if items else set()
        (own if is_own(path) else theirs).update(n for n in names if n in table)
    return own - theirs, theirs - own


def aliases_of(text):
    """The short names of library modules in a file, with the dot behind them."""
    return tuple(a + "." for path, a in re.findall(r"(?m)^use (\S+) as (\S+)$", text) if not is_own(path))


def turned(text, own, theirs, fields, aliases=()):
    def word(m):
        name, before = m[0], text[: m.start()]
        if name in theirs or aliases and before.endswith(aliases):
            return name
        dotted = before.endswith(".")
        field = re.match(r" *= ", text[m.end() :]) and re.search(r"(?:[{;]|\n) *$", before)
        if name in own or (dotted or field) and name in fields:
            return snake(name)
        return name

    return WORD.sub(word, text)


def blocks(text):
    """The clauses and ghost items of a .rt file, as pairs of a beginning and an end."""
    at = 0
    for m in re.finditer(CLAUSE.pattern + r"|\bghost\s+use\b", text):
        if m.start() < at:
            continue
        if m[0].endswith("use"):
            at = text.index(";", m.end()) + 1
        else:
            depth, at = 1, m.end()
            while depth:
                depth += {"{": 1, "}": -1}.get(text[at], 0)
                at += 1
        yield m.start(), at


def main():
    check = "--check" in sys.argv
    texts = {f: open(f, encoding="utf-8").read() for f in files("crates", ".antt", ".rt")}
    for f, names in LOCAL.items():
        for old, new in names.items():
            texts[f] = re.sub(rf"(?<![\w-]){old}(?![\w-])", new, texts[f])
    lemmas = [f for f in texts if f.endswith(".antt") and not f.endswith(("/Proof.antt", "/Lib.antt"))]
    every = {f: declared(QUIET.sub(" ", texts[f])) for f in lemmas}
    known = set().union(*every.values())
    by_file = {f: {n for n in names if snake(n) != n} for f, names in every.items()}
    table = set().union(*(parts(n) for names in by_file.values() for n in names))
    fields = table
    new = {snake(n) for n in table}
    for f, text in texts.items():
        code = QUIET.sub(" ", text)
        mine = set().union(*(parts(n) for n in by_file.get(f, ())))
        own, theirs = own_of(code, table, mine)
        own |= set().union(*(parts(n) for n in own)) if own else set()
        words = set(WORD.findall(code))
        for name in sorted(own & words):
            if snake(name) in words:
                print(f"meets: {f}: {name} -> {snake(name)}")
        if f.endswith(".rt"):
            out, at = [], 0
            for start, end in blocks(text):
                out += [text[at:start], turned(text[start:end], own, theirs, fields)]
                at = end
            result = "".join([*out, text[at:]])
            result = re.sub(r"//[^\n]*", lambda m: SPAN.sub(lambda s: turned(s[0], table, (), fields), m[0]), result)
        else:
            out, at, aliases = [], 0, aliases_of(text)
            for m in QUIET.finditer(text):
                said = m[0] if m[0][0] == '"' else turned(m[0], own & words - {"second-order"}, theirs, fields - {"second-order"})
                out += [turned(text[at : m.start()], own, theirs, fields, aliases), said]
                at = m.end()
            result = "".join([*out, turned(text[at:], own, theirs, fields, aliases)])
        if result != text and not check:
            open(f, "w", encoding="utf-8").write(result)
    # A name that the kit's port.py spelled anew in the code alone
    older = lambda said: {w for w in WORD.findall(said.replace("`", " ")) if snake(w) != w and snake(w) in known}
    # A code span of a document, the text of an edit of a definition or a proof.
    for f in [*files("docs", ".md"), *files("bindings", ".md"), *files("harness", ".md"), *(n for n in os.listdir(".") if n.endswith(".md"))]:
        text = open(f, encoding="utf-8").read()
        result = re.sub(r"(?ms)^```.*?^```|`[^`\n]+`", lambda m: turned(m[0].replace("`", " \0 "), table | older(m[0]), (), fields).replace(" \0 ", "`"), text)
        if result != text and not check:
            open(f, "w", encoding="utf-8").write(result)
    for f in files("crates", ".edit"):
        out, of_code = [], False
        for line in open(f, encoding="utf-8").read().split("\n"):
            if line.startswith("file: "):
                of_code = line.endswith(".rt")
            said = line.startswith(("old: ", "new: ")) and (not of_code or re.search(r"requires \{|ensures \{", line))
            out.append(line[:5] + turned(line[5:], table, (), fields) if said else line)
        if not check:
            open(f, "w", encoding="utf-8").write("\n".join(out))
    if check:
        for name in sorted(table):
            print(f"{name} -> {snake(name)}")
    sys.exit(0)


CRATES = set(os.listdir("crates"))
if __name__ == "__main__":
    main()
