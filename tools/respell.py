#!/usr/bin/env python3
"""Respells the names of definitions and lemmas as today's library spells its own: run once, right behind port.py, at the top of the repository.

A word in camel case becomes one in snake case, a subscript a digit, and a predicate's name begins with a capital. A dash of a name stays only between the
names of two definitions; a plain word is added with an underscore. Only the text that contracts and proofs are made of is changed: specs/, proofs/,
clauses and `ghost use` lines; no string, and nothing of the code itself. A name that falls together with another of its file is told, and nothing is written."""

import pathlib
import re
import sys

ROOT = pathlib.Path("crates")
# the library's words that a lemma's name may be made of, beside the definitions of this repository
WORDS = set("append length drop take map reverse cond max min suc zero cons nil get_or set filter leb eqb ltb not".split())
# lower-case names of predicates
FACTS = {"without": "Without", "clean": "Clean", "last_values": "LastValues"}
HEAD = re.compile(r"^( *)((?:(?:abbrev|opaque|unfoldable|pub|instance)\s+)*)(?:(?:record|data|ruleset)\s+)?([^\s:(){},.=|«»]+)(?:\s+[^=:]*?)?\s*:(?:\s|$)")
TOKEN = re.compile(r"[^\s(){}\[\].,;:=\"`«»λ→×≡∷⟨⟩⌜⌝|◌⊎↦?]+")
CAMEL = re.compile(r"[a-z][a-z0-9]*(?:[A-Z][a-z0-9₀-₉]*)+")
SUBSCRIPTS = str.maketrans("₀₁₂₃₄₅₆₇₈₉", "0123456789")


def snake(name):
    """`getsAA` is `gets_aa`: a run of capitals is one word."""
    return re.sub(r"[A-Z]+", lambda m: "_" + m[0].lower(), name)


def outside_strings(line, comment, turn, in_comments):
    """The line with turn applied to what is in no string, and in no comment unless they are asked for."""
    out, i = [], 0
    for m in re.finditer(r'"(?:\\.|[^"\\])*"|' + re.escape(comment) + ".*", line):
        out.append(turn(line[i : m.start()]))
        out.append(in_comments(m[0]) if m[0].startswith(comment) else m[0])
        i = m.end()
    out.append(turn(line[i:]))
    return "".join(out)


def declared():
    """The names that specs/ and the lemma files declare: those of definitions, and those of lemmas."""
    definitions, lemmas = set(), set()
    for path in sorted([*ROOT.glob("*/specs/**/*.antt"), *ROOT.glob("*/proofs/*.antt")]):
        for line in path.read_text().split("\n"):
            m = HEAD.match(line)
            if m and not line.lstrip().startswith("--") and m[3] not in ("use", "mod"):
                is_definition = "/specs/" in str(path) or re.search(r"abbrev|unfoldable|record|data", line[: m.end()])
                (definitions if is_definition else lemmas).add(m[3])
    return definitions, lemmas


def joined(parts, words):
    """The parts of a lemma's name, each run of them that names a definition told from the next by a dash; None where they are no such runs."""
    if not parts:
        return []
    for n in range(len(parts), 0, -1):
        name = "_".join(parts[:n])
        rest = joined(parts[n:], words) if name in words else None
        if rest is not None:
            return [name, *rest]
    return None


def snake_of_other(name, new, names):
    return any(CAMEL.fullmatch(it) and it != name and snake(it) == new for it in names)


def table():
    definitions, lemmas = declared()
    turned = {}
    words = {snake(name) for name in definitions if "-" not in name} | WORDS
    for name in sorted(definitions | lemmas):
        if not re.match(r"[A-Za-z]", name):
            continue
        new = snake(name.translate(SUBSCRIPTS)) if CAMEL.fullmatch(name) else name.translate(SUBSCRIPTS)
        if "-" in new:
            parts = [snake(it) if CAMEL.fullmatch(it) else it for it in new.split("-")]
            runs = joined(parts, words)
            new = "-".join(runs) if runs else "_".join(parts)
        # a lemma that would have its function's name
        if name not in definitions and new in words - WORDS or "-" in name and snake_of_other(name, new, definitions | lemmas):
            new += "_lem"
        new = FACTS.get(new, new)
        if new != name:
            turned[name] = new
    return turned


def turn_text(text, turned):
    """Each name of the table, but no field behind a dot that a dash or a plain word could be of what rt makes."""

    def one(m):
        name = m[0]
        is_field = m.start() > 0 and text[m.start() - 1] == "."
        if is_field and not CAMEL.fullmatch(name):
            return name
        if name in turned:
            return turned[name]
        return snake(name) if CAMEL.fullmatch(name) else name.translate(SUBSCRIPTS)

    return TOKEN.sub(one, text)


def turn_comment(text, turned):
    """A comment's names are those in camel case and those with a dash that a definition or a lemma has, in backquotes."""
    text = re.sub(r"`[^`]*`", lambda m: turn_text(m[0], turned), text)
    return CAMEL_WORD.sub(lambda m: turned.get(m[0], m[0]), text)


CAMEL_WORD = re.compile(r"(?<![\w`-])[a-z][a-z0-9]*(?:[A-Z][a-z0-9]*)+(?![\w`-])")


def turn_antt(text, turned):
    return "\n".join(outside_strings(line, "--", lambda t: turn_text(t, turned), lambda c: turn_comment(c, turned)) for line in text.split("\n"))


def turn_source(text, turned):
    """The clauses, the ghost items and the `ghost use` lines of a source file."""
    out, deep, in_use, in_ghost = [], 0, False, False
    for line in text.split("\n"):
        starts = deep == 0 and re.match(r"\s*(requires|ensures)\b|\s*ghost (?!use)", line)
        in_use = in_use or line.startswith("ghost use")
        if starts or deep or in_use:
            out.append(outside_strings(line, "//", lambda t: turn_text(t, turned), lambda c: turn_comment(c, turned)))
            if not in_use:
                deep += line.count("{") - line.count("}")
        else:
            out.append(outside_strings(line, "//", lambda t: t, lambda c: turn_comment(c, turned)))
        if in_use and line.rstrip().endswith(";"):
            in_use = False
    return "\n".join(out)


def collisions(text, turned):
    """Names of one file that the table makes one."""
    plain = re.sub(r'"(?:\\.|[^"\\])*"|--.*|\.[\w.]+|[{;] \w+ =', "", text)
    names = {m[0] for m in TOKEN.finditer(plain)}
    return sorted(f"{name} and {turned[name]}" for name in names if name in turned and turned[name] in names and turned[name] not in turned)


def main():
    turned = table()
    seen = {}
    for old, new in turned.items():
        seen.setdefault(new, []).append(old)
    told = [f"{' and '.join(olds)} would be {new}" for new, olds in seen.items() if len(olds) > 1]
    files = sorted([*ROOT.glob("*/specs/**/*.antt"), *ROOT.glob("*/proofs/**/*.antt")])
    for path in files:
        told += [f"{path}: {it}" for it in collisions(path.read_text(), turned)]
    if "--table" in sys.argv:
        for old, new in sorted(turned.items()):
            print(old, new)
    if told:
        print("\n".join(told))
        return 1
    if "--table" in sys.argv:
        return 0
    for path in files:
        path.write_text(turn_antt(path.read_text(), turned))
    for path in sorted(ROOT.glob("*/src/**/*.rt")):
        path.write_text(turn_source(path.read_text(), turned))
    return 0


sys.exit(main())
