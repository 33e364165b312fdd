#!/usr/bin/env python3
"""Lists the places in crates/*/src where code is written in an older form, by the points of docs/DESIGN-PASS.md.

usage: python3 tools/places.py [COMMIT] [POINT]    without COMMIT the working tree; without POINT the counts of all points

It goes by text: a line that it prints is a place to look at. docs/DESIGN-PASS.md says which of them are places.
"""

import collections
import re
import subprocess
import sys
from pathlib import Path

# point -> what to look for in a line
LINES = {
    1: r"'\\0'|'\?'|=> &\[\]|=> 0,|map_or\(0|let mut \w+ = (true|false);|fn number\(|^\s*(pub )?(text|line|field|number): usize,$",
    3: r"\bfor \w+ in [^{]*\.\.|\bwhile |\bloop\b|\+= 1\b",
    4: r"\.(number|label|from|to) == |==\s+\w+\.(number|kind)\b|\bas (u8|u32|u64|usize|char)\b|[<>]=? b'|Err\((\w+)\) => Err\(|None => None|=> Some\(|fn same_\w+",
    6: r"\b\w*(count|sizes|used): (usize|\[)|: \[[^\]]+; MOST_\w+\]|; MOST_\w+\] *=?|-> \[usize",
    7: r"\b(?!ensures|requires)\w+: bool\b|\bfn\(|\bdyn\b",
}


def files(commit):
    """The sources, by name."""
    if commit:
        names = subprocess.run(["git", "ls-tree", "-r", "--name-only", commit, "crates"], capture_output=True, text=True, check=True).stdout.split()
        for name in names:
            if "/src/" in name and name.endswith(".rt"):
                yield name, subprocess.run(["git", "show", f"{commit}:{name}"], capture_output=True, text=True, check=True).stdout
    else:
        for path in sorted(Path("crates").glob("*/src/**/*.rt")):
            yield str(path), path.read_text()


def signatures(text):
    """Each function: its name, its parameters, what it answers, and the clauses after that."""
    for found in re.finditer(r"fn (\w+)(<[^{(]*>)?\(([^)]*)\)(.*?)(\n *\{|\{\}| \{\n|;)", text, re.S):
        yield found.group(1), " ".join(found.group(3).split()), found.group(4)


def bodies(name, text):
    """The functions of a file, whole, with names and numbers taken out, for twins."""
    for found in re.finditer(r"^( *)(pub(?:\(\w+\))? )?fn (\w+).*?\n\1\}", text, re.M | re.S):
        lines = [line.strip() for line in found.group(0).split("\n")[1:] if line.strip() and not line.strip().startswith(("//", "requires", "ensures"))]
        shape = re.sub(r"\b[a-z_][a-z_0-9]*\b|\b[A-Z]\w*\b|\b\d[\d_]*\b", "x", " ".join(lines))
        yield f"{name}: {found.group(3)}", shape


def places(point, sources):
    if point == 2:
        shapes = collections.defaultdict(list)
        for name, text in sources:
            for place, shape in bodies(name, text):
                if len(shape) > 25:
                    shapes[shape].append(place)
        return [" ~ ".join(group) for group in shapes.values() if len(group) > 1]
    if point == 5:
        clauses, together = collections.Counter(), collections.Counter()
        for name, text in sources:
            for function, parameters, after in signatures(text):
                for clause in re.findall(r"requires (?:\w+ )?\{ ([^}]*) \}", after):
                    for part in set(re.split(r" × ", clause)):
                        clauses[re.sub(r"\w+\.(now|old)", "x", part.strip("() "))] += 1
                names = [p.split(":")[0].replace("mut ", "").strip() for p in parameters.split(", ") if ":" in p]
                for i, one in enumerate(names):
                    for other in names[i + 1 :]:
                        together[f"{name.split('/')[1]}: ({one}, {other})"] += 1
        return [f"{n} functions require {c}" for c, n in clauses.most_common() if n > 2] + [f"{n} functions take {c}" for c, n in together.most_common() if n > 2]
    listed = []
    for name, text in sources:
        for number, line in enumerate(text.split("\n"), 1):
            if not line.strip().startswith(("//", "ghost", "requires", "ensures")) and re.search(LINES[point], line):
                listed.append(f"{name}:{number}: {line.strip()}")
        if point == 1:
            for function, parameters, after in signatures(text):
                if "&mut" in parameters and after.strip().startswith("-> bool"):
                    listed.append(f"{name}: {function} answers a flag and changes what it was given")
    return listed


def main():
    words = sys.argv[1:]
    point = int(words.pop()) if words and words[-1] in "1234567" else None
    sources = list(files(words[0] if words else None))
    for which in [point] if point else [1, 2, 3, 4, 5, 6, 7]:
        found = places(which, sources)
        if point:
            print("\n".join(found))
        print(f"point {which}: {len(found)} lines")


main()
