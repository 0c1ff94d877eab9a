#!/usr/bin/env python3
"""Brings the repository's own names in contracts, definitions and proofs to today's spelling.

usage: python3 tools/respell.py      at the top of the repository, once, after the kit's own script

Words are in snake case, types and facts in camel case. Which name becomes which is the table respell.tsv, beside this
script. Names that the checker makes for goals and steps follow the code's own spelling: a dash inside a name of src/
becomes '_' again, and so it does inside the checker's words of several parts (in_ok, offset_bounds). Functions, types,
fields, strings and comments of src/ keep their text; in comments of .antt files and in pages only what stands between
backticks is turned.
"""

import os
import re

HERE = os.path.dirname(os.path.realpath(__file__))
WORD = r"[^\s(){}\[\];,.:·«»|=⌜⌝\"'`@→×λ]+'*"
TOKEN = re.compile(WORD)
# Names of std's functions that occur in the names of goals and steps.
OF_STD = "from_residual copy_from_slice saturating_add saturating_sub with_capacity get_mut swap_remove is_none is_some checked_add try_from as_slice split_at copy_within to_le_bytes from_le_bytes".split()
# The checker's own words of several parts.
MADE = re.compile(
    r"(?<![\w+'])(overflow-(?:add|sub|mul|shl|shr|cast|step)|nonzero-(?:div|rem)|(?:offset|slice)-bounds|invariant-of|type-inv"
    r"|in-(?:default|ok|err)|yielded-by|call-mut)(?![\w+'])"
)
# Two definitions of crates/marks that would get the names of fields, where they are cited by their bare names.
FREE = re.compile(r"(?<![.\w'-])next-(slot|body)(?![\w'-])(?!\s*=)")
CITES_FREE = re.compile(r"marks\.specs\.Marks\.\{[^}]*next-(slot|body)|^abbrev pub next-slot : Geometry", re.M)


def table():
    with open(os.path.join(HERE, "respell.tsv"), encoding="utf-8") as rows:
        return dict(row.rstrip("\n").split("\t") for row in rows if row.strip())


def of_source(folder):
    """Returns, by the spelling with dashes, each name with '_' of a crate's source."""
    found = set(OF_STD)
    for top, dirs, names in os.walk(os.path.join(folder, "src")):
        for name in names:
            with open(os.path.join(top, name), encoding="utf-8") as it:
                found |= set(re.findall(r"\b[A-Za-z]+(?:_[A-Za-z0-9]+)+\b", it.read()))
    return {it.replace("_", "-"): it for it in found if it.isupper() or it.islower()}


def made(word, source):
    """A name that the checker makes, spelled as it spells it now."""
    word = MADE.sub(lambda m: m.group(0).replace("-", "_"), word)
    for dashed in sorted(source, key=len, reverse=True):
        if dashed in word:
            word = re.sub(rf"(?<![A-Za-z0-9_]){re.escape(dashed)}(?![A-Za-z0-9_])", source[dashed], word)
    return word


def turn_words(text, names, source):
    def one(m):
        word = m.group(0)
        if "-" not in word:
            return word
        if word in names:
            return names[word]
        return made(word, source) if source is not None else word

    return TOKEN.sub(one, text)


def ticked(text, names):
    return re.sub(r"`[^`\n]*`", lambda m: turn_words(m.group(0), names, None), text)


def of_a_function(path):
    parts = path.split(os.sep)
    return "proofs" in parts and len(parts) - parts.index("proofs") > 2


def freed(text):
    return FREE.sub(lambda m: "next_free_" + m.group(1), text) if CITES_FREE.search(text) else text


def turn_antt(path, text, names, source):
    text = freed(text)
    out = []
    for line in text.split("\n"):
        cut = re.search(r"(?:^|\s)--(?:\s|$)", line)
        code, comment = (line[: cut.start()], line[cut.start() :]) if cut else (line, "")
        out.append(turn_words(code, names, source if of_a_function(path) else None) + ticked(comment, names))
    return "\n".join(out)


def turn_rt(text, names):
    """Only names with a dash are turned, and the code has none; strings and comments stay."""
    text = freed(text)
    parts = re.split(r'(//[^\n]*|"(?:[^"\\]|\\.)*")', text)
    return "".join(it if i % 2 else turn_words(it, names, None) for i, it in enumerate(parts))


def turn(path, how):
    with open(path, encoding="utf-8") as it:
        old = it.read()
    new = how(old)
    if new != old:
        with open(path, "w", encoding="utf-8") as it:
            it.write(new)


def main():
    names = table()
    for crate in sorted(os.listdir("crates")):
        folder = os.path.join("crates", crate)
        source = of_source(folder)
        for top, dirs, files in os.walk(folder):
            dirs[:] = [it for it in dirs if it not in ("out", "must-fail", "data")]
            for name in files:
                path = os.path.join(top, name)
                if name.endswith(".antt"):
                    turn(path, lambda text: turn_antt(path, text, names, source))
                elif name.endswith(".rt"):
                    turn(path, lambda text: turn_rt(text, names))
    for page in ["README.md"] + [os.path.join("docs", it) for it in sorted(os.listdir("docs"))]:
        if page.endswith(".md"):
            turn(page, lambda text: ticked(text, names))


if __name__ == "__main__":
    main()
