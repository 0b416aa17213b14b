#!/usr/bin/env python3
"""Spells this repository's own definitions, lemmas, fields and locals in snake case, in specs/, proofs/ and the clauses of src/.

usage: python3 tools/respell.py [--check]     at the top of the repository, once, after the kit's port.py

A name is the repository's own where an .antt file of crates/ declares it, binds it by `let`, or has it as a constructor or a field.
In a file that imports a name of the same spelling from a library, that name stays. Functions of src/ and all strings stay.
--check writes nothing and prints names that would fall together.
"""
import collections
import glob
import os
import re
import sys

NAME = r"[^\s(){}.;,@\"«»]+"
WORD = re.compile(r"(?<![^\s(){}.;,@«»])" + NAME)
DECLARED = re.compile(r"(?m)^[ \t]*(?:(?:pub|abbrev|unfoldable|opaque|data|record|postulate) +)*(" + NAME + r")(?: +\{[^{}\n]*\}| +\([^()\n]*\))* *:(?![:=])")
LET = re.compile(r"\blet +(" + NAME + r")(?= +[:=])")
USE = re.compile(r"(?m)^(?:pub )?use ([^\s;{]+?)(?:\.\{([^}]*)\})?(?: as (\S+))?$")
GHOST = re.compile(r"ghost use ([^\s;{]+?)(?:\.\{([^}]*)\})?;")
# A lemma whose name falls together with its function's, or with a library's word beside it, gets `_lem`: those named here, and each dashed one that `turned` finds.
APART = {"of-bits": "of_bits_lem"}
# The same in a file that the kit's script spelt before.
BEFORE = {
    "crates/demand/proofs/Course.antt": ["flat_step"],
    "crates/promises/proofs/Sight.antt": ["in_stack"],
    "crates/rules/proofs/Loops.antt": ["is_true", "is_false"],
}


def snake(name):
    if not re.match(r"[a-zμ+]", name):
        return name
    words = re.sub(r"(?<=[a-z0-9])[A-Z]", lambda m: "_" + m[0].lower(), name)
    return words.replace("-", "_")


def split_comment(line):
    at = line.find("--")
    while at > 0 and line[at - 1] not in " \t":
        at = line.find("--", at + 2)
    return (line, "") if at < 0 else (line[:at], line[at:])


def code_of(text):
    return "\n".join(split_comment(it)[0] for it in text.split("\n"))


def is_own(path):
    return path.startswith("Rattle.") and path.split(".")[1] in OWN


def from_libraries(text, pattern):
    names = set()
    for m in pattern.finditer(text):
        if not is_own(m[1]):
            names |= {it.strip().split(" as ")[0] for it in (m[2] or "").split(",")}
    return names


def texts(ending):
    found = [it for part in ("specs", "proofs", "src") for it in glob.glob(f"crates/*/{part}/**/*.{ending}", recursive=True)]
    return sorted(found)


def is_walk(path):
    return path.endswith("/Proof.antt")


OWN = {it.split("/")[1] for it in glob.glob("crates/*/src")}


def declared():
    names = collections.defaultdict(set)
    for path in texts("antt"):
        with open(path, encoding="utf-8") as f:
            code = code_of(f.read())
        found = set(LET.findall(code))
        if not is_walk(path):
            found |= set(DECLARED.findall(code))
        for it in found:
            names[it].add(path)
    return names


def turned(names):
    camel = {snake(it) for it in names if "-" not in it and snake(it) != it}
    table = {}
    for it in names:
        new = APART.get(it, snake(it))
        if "-" in it and (new in names or new in camel):
            new += "_lem"
        if new != it:
            table[it] = new
    return table


def respell(code, table, stay):
    def word(m):
        return m[0] if m[0] in stay else table.get(m[0], m[0])

    return WORD.sub(word, code)


def respell_comment(text, table):
    text = re.sub(r"(?<![\w-])[a-z]+[A-Z]\w*(?![\w-])", lambda m: table.get(m[0], m[0]), text)
    return re.sub(r"`([^`\s]+)`", lambda m: "`" + ".".join(table.get(it, it) for it in m[1].split(".")) + "`", text)


def turn_antt(path, text, table):
    for old in BEFORE.get(path, []):
        text = respell(text, {old: old + "_lem"}, set())
    stay = from_libraries(code_of(text), USE)
    lines = []
    for line in text.split("\n"):
        code, comment = split_comment(line)
        lines.append(respell(code, table, stay) + respell_comment(comment, table))
    return "\n".join(lines)


def turn_rt(text, table):
    camel = {it: table[it] for it in table if re.fullmatch(r"[a-z]\w*[A-Z]\w*", it)}
    dashed = {it: table[it] for it in table if it not in camel}
    stay = from_libraries(text, GHOST)
    text = re.sub(r'"(?:\\.|[^"\\])*"|(?<![\w-])[a-z]\w*[A-Z]\w*(?![\w-])', lambda m: m[0] if m[0] in stay else camel.get(m[0], m[0]), text)

    def clause(m):
        return respell(m[0], dashed, stay)

    text = re.sub(r"(?m)^ghost use [^;]*;", clause, text)
    return re.sub(r"(?m)^[ \t]*(?:requires|ensures)\*?(?: \w+)? \{.*(?:\n(?![ \t]*(?:\{|requires|ensures)).*)*", clause, text)


def main():
    check = "--check" in sys.argv
    names = declared()
    table = turned(names)
    clashes = collections.defaultdict(set)
    for old, new in table.items():
        clashes[new].add(old)
    for new, olds in sorted(clashes.items()):
        if len(olds) > 1 or new in names:
            print("together:", new, sorted(olds), {it: sorted(names[it])[:2] for it in olds}, sorted(names.get(new, []))[:2])
    for path in texts("antt") + texts("rt"):
        with open(path, encoding="utf-8") as f:
            text = f.read()
        words = set(WORD.findall(code_of(text) if path.endswith(".antt") else text))
        stay = from_libraries(text, USE if path.endswith(".antt") else GHOST)
        for old in sorted(words & set(table)):
            if path.endswith(".antt") and table[old] in words and old not in stay:
                print(f"beside: {path}: {old} -> {table[old]}")
            if path.endswith(".rt") and re.search(rf"\b{re.escape(table[old])}\s*:", text):
                print(f"hidden: {path}: {old} -> {table[old]}")
        new = turn_antt(path, text, table) if path.endswith(".antt") else turn_rt(text, table)
        if new != text and not check:
            with open(path, "w", encoding="utf-8") as f:
                f.write(new)
    if check:
        print(len(names), "names,", len(table), "turned")


if __name__ == "__main__":
    main()
