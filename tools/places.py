#!/usr/bin/env python3
"""Lists the places in crates/*/src where an older form may stand, by text: `tools/places.py [FOLDER]` (default: this checkout).

For each point it prints a title with a count, then file:line and the line. A line is a place to be looked at, not a verdict: which of
them are places, and why one stays, is told in docs/DESIGN-PASS.md. Lines of comments are left out.
"""
import collections
import pathlib
import re
import sys

root = pathlib.Path(sys.argv[1] if len(sys.argv) > 1 else pathlib.Path(__file__).resolve().parent.parent)
files = sorted(root.glob("crates/*/src/**/*.rt"))
texts = {f: f.read_text() for f in files}


def name(f):
    return str(f.relative_to(root / "crates"))


def code(line):
    return not line.strip().startswith("//")


def lines(pattern, skip=None):
    found = []
    for f, text in texts.items():
        for n, line in enumerate(text.splitlines(), 1):
            if code(line) and re.search(pattern, line) and not (skip and re.search(skip, line)):
                found.append((name(f), n, line.strip()))
    return found


def spans(pattern):
    found = []
    for f, text in texts.items():
        for m in re.finditer(pattern, text, re.S | re.M):
            found.append((name(f), text.count("\n", 0, m.start()) + 1, " ".join(m.group(0).split())[:110]))
    return found


def show(title, found):
    print(f"\n## {title}: {len(found)}")
    for f, n, line in found:
        print(f"{f}:{n}: {line[:150]}")


FUNCTION = r"^[ ]*(?:pub |pub\(crate\) )?fn \w+(?:<[^>]*>)?\("
CLAUSE = r"^\s*(requires|ensures)"

# 1. Enums, flags and numbers in their place.
show("1a enums that derive no comparison", spans(r"#\[derive\((?:(?!PartialEq)[^)])*\)\]\s*(?:pub |pub\(crate\) )?enum \w+"))
show("1b a flag beside what is written", [x for x in spans(FUNCTION + r"[^{]*?-> (?:bool\b|usize\b|Option<usize>)") if "&mut [" in x[2]])
show("1c numbers for kinds or refusals", lines(r"number\(\) ==|number\(\) as|kind: u(8|16)|: \[?u\d+(; \d)?\]? = |type Row|-> u8|-> u16|; 6\]", CLAUSE))
show("1d an Option or Result rebuilt by a match", lines(r"None => None|None => \{\}|Ok\(\(\)\) => Ok\(\(\)\)|None => Ok\(None\)|(None|Err\(_\)) => false|Some\(_\) => return|Ok\((\w+)\) => Ok\(\w+\)|Err\(e\) => Err\(e\)|Some\((\w+)\) => Some\("))
show("1e flags", lines(r"^\s*(pub )?\w+: bool,|: bool[,)]", CLAUSE))

# 2. Functions whose bodies are alike once names, types and numbers are blanked.
bodies = collections.defaultdict(list)
for f, text in texts.items():
    for m in re.finditer(r"^( *)(?:pub |pub\(crate\) )?(?:extern \"C\" )?fn (\w+).*?\n\1\{\n(.*?)\n\1\}", text, re.S | re.M):
        body = re.sub(r"//.*", "", m.group(3))
        shape = re.sub(r"\b[A-Za-z_]\w*\b|\d+|\"[^\"]*\"", "x", body)
        shape = re.sub(r"\s+", "", shape)
        if len(shape) > 12:
            bodies[shape].append((name(f), text.count("\n", 0, m.start(2)) + 1, "fn " + m.group(2)))
alike = [group for group in bodies.values() if len(group) > 1]
show("2a functions with bodies of one shape", [x for group in alike for x in group + [("", 0, "-")]][:-1])
show("2b names in pairs", [x for x in lines(r"fn \w*(16|32|file|folder|slots?|bod(y|ies)|entr(y|ies)|damage|list|leaf|leaves|mark)\w*[(<]", CLAUSE)])

# 3. Loops.
show("3 loops with a counter", lines(r"\bwhile |\bfor [\w_]+ in [^{]*\.\."))

# 4. Equality, conversion and printing by hand.
show("4a numbers compared inside their types", lines(r"\.0 (==|!=) |== \w+(\.\w+)*\.0\b", CLAUSE))
show("4b equality, kinds and words by hand", lines(r"fn (is_same|same_kind|is_kind|is_folder|same|layer_name|words|outcome|number|path_number|kind_of|state|print_\w+|\w+_text)[(<]|=> \"|\(Kind::\w+, Kind::"))

# 5. What travels together.
groups = collections.Counter()
for f, text in texts.items():
    for m in re.finditer(FUNCTION + r"(.*?)\)\s*(?:->|\n|requires|ensures|\{)", text, re.S | re.M):
        parameters = re.findall(r"(?:^|[,(\n])\s*(?:mut )?(\w+): ", "," + m.group(0).split("(", 1)[1])
        for a in range(len(parameters)):
            for b in range(a + 1, len(parameters)):
                groups[(parameters[a], parameters[b])] += 1
print("\n## 5a pairs of parameters in five or more functions:", sum(1 for n in groups.values() if n >= 5))
for pair, n in sorted(groups.items(), key=lambda x: -x[1]):
    if n >= 5:
        print(n, *pair)
facts = collections.Counter()
for f, text in texts.items():
    for line in text.splitlines():
        if re.match(CLAUSE, line):
            for fact in set(re.findall(r"(Fitting|ValidOpened|Valid|Inside|Sized|SlotSized|Sane|Whole|Open|Chain|Grounded|length \w+\.now ≡ \d+|length \w+\.now ≤ \d+|slot\.(?:now\.)?kind ≡ \w+|gone ≡ \w+)\b", line)):
                facts[(name(f).split("/")[0], fact)] += 1
print("\n## 5b facts in three or more clauses of a crate:", sum(1 for n in facts.values() if n >= 3))
for (crate, fact), n in sorted(facts.items(), key=lambda x: -x[1]):
    if n >= 3:
        print(n, crate, fact)

# 6. Buffers with a length beside, and arrays side by side.
show("6 arrays as fields and parameters", lines(r"\w+: (&mut )?\[.*; \d+\],?", r"fn |let |ghost|" + CLAUSE))

# 7. What to do, chosen by a value.
show("7 enums and words that choose a step", lines(r"enum (Sought|Command|Layers)|match command|match \w+\.as_str|match name \{"))

kept = [(name(f), n, line.strip()) for f, text in texts.items() for n, line in enumerate(text.splitlines(), 1) if "// Kept:" in line]
show("kept, with a reason", kept)
