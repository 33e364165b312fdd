#!/usr/bin/env python3
"""Brings the definitions and lemmas of this repository to one spelling.

usage: python3 tools/respell.py          (at the top of the repository, once, right after the kit's port.py)
       python3 tools/respell.py --list   prints the old and the new names and writes nothing

Words are in snake case; types and modules keep their camel case. A dash stays after a word of the library by which an
equation begins, as in length-graphs; otherwise words are joined by an underscore. A prime is an apostrophe. A lemma that
would have the name of a definition ends in _lem.
Names of other libraries stay as they are. In the names that Rattle makes (goals, invariants, measures, steps), names of
the source keep their underscores.
"""
import os
import re
import sys

CRATES = "graphs keys network sheets sheet_cases fields faults grammar texts text_cases text_speed verdicts proofread finding filling writing patterns cutting engine_cases engine_speed".split()
WORD = re.compile(r"(?<![\w'◌.-])[A-Za-z_][\w'◌]*(?:-[\w'◌*+=<>≡≤&|∷]+)*|(?<=\.)[A-Za-z_][\w'◌]*(?:-[\w'◌*+=<>≡≤&|∷]+)*")
DECLARED = re.compile(r"^( *)(?:abbrev pub |unfoldable pub |pub |abbrev |unfoldable )?([A-Za-z_][\w'-]*)(?: [\w'-]+)* : (.*)$", re.M)
# the words of the library before which a lemma's name keeps its dash, as in length-graphs
LEFT_SIDES = {"length", "take", "drop", "map", "get_or"}
# lemmas in snake case whose names a definition takes now; in proof files alone
BY_HAND = {"patternCount": "pattern_count", "pieceCount": "piece_count", "tieCount": "tie_count", "numbersAt": "numbers_at", "numbers-at": "numbers_at_lem", "withPattern": "with_pattern"}
LEMMAS = {"first_some": "first_some_lem", "none_alike": "none_alike_lem", "same_kind": "same_kind_lem", "split_at": "split_at_lem"}


def files():
    for crate in CRATES:
        for folder, dirs, names in os.walk(os.path.join("crates", crate)):
            dirs[:] = sorted(d for d in dirs if d != "out")
            for name in sorted(names):
                if name.endswith((".antt", ".rt")):
                    yield os.path.join(folder, name)


def snake(word):
    """fooBar as foo_bar; a word that begins with a capital keeps its first part as it is, being a type."""
    if not re.match(r"[a-z]", word):
        return word
    return re.sub(r"([a-z0-9'])([A-Z]+)", lambda m: m.group(1) + "_" + m.group(2).lower(), word)


def source_names(texts, crate):
    """The crate's Rust identifiers that have an underscore, longest first."""
    found = set()
    for path, text in texts.items():
        if path.startswith(f"crates/{crate}/src/"):
            found.update(re.findall(r"\b[A-Za-z]\w*_\w+", text))
    return sorted(found, key=lambda n: (-len(n), n))


def made_name(word, names):
    """A name that Rattle makes: the names of the source in it keep their spelling."""
    for name in names:
        word = re.sub(r"(?<![\w'])" + re.escape(name.replace("_", "-")) + r"(?![\w'])", name, word)
    word = re.sub(r"\b(in)-(ok|err|default)\b", r"\1_\2", word, flags=re.I)
    word = re.sub(r"\b(overflow)-(add|sub|mul|shl|shr|cast)\b", r"\1_\2", word)
    word = re.sub(r"\b(slice|offset)-(bounds)\b", r"\1_\2", word)
    return re.sub(r"\binvariant-of\b", "invariant_of", word)


def main():
    texts = {}
    for path in files():
        with open(path, encoding="utf-8") as f:
            texts[path] = f.read()
    declared, made, library = set(), set(), set()
    definitions = set()
    for path, text in texts.items():
        for m in re.finditer(r"use (Rattle\.(\w+)|borrow|native|antt)[\w.+]*\.\{([^}]*)\}", text):
            if m.group(2) not in CRATES:
                library.update(n.strip().split(" as ")[0] for n in m.group(3).split(","))
            if m.group(2) in CRATES and re.search(r"\.(Goals|Given)\.\{", m.group(0)):
                made.update(n.strip() for n in m.group(3).split(","))
        if not path.endswith(".antt"):
            continue
        for m in DECLARED.finditer(text):
            if re.match(r"[\w-]+\." + re.escape(m.group(2)) + r"$", m.group(3)):
                made.add(m.group(2))
            else:
                declared.add(m.group(2))
                if "/specs/" in path:
                    definitions.add(m.group(2))
        for m in re.finditer(r"\blet ([A-Za-z_][\w'-]*)|λ ([\w' -]+)\.|^ *(?:pub )?([A-Za-z_][\w'-]*) = ", text, re.M):
            for w in " ".join(g for g in m.groups() if g).split():
                if re.search(r"[a-z][A-Z]|-", w):
                    declared.add(w)
    tokens = set(LEMMAS.values()) | definitions
    for path, text in texts.items():
        if path.endswith(".antt"):
            text = re.sub(r"--.*", "", text)
            tokens.update(m.group(0) for m in WORD.finditer(text) if text[m.start() - 1:m.start()] != ".")
    new = dict(LEMMAS)
    names = sorted(declared - made - library)
    for name in [n for n in names if n in definitions] + [n for n in names if n not in definitions]:
        parts = name.split("-")
        turned = snake(parts[0])
        for at, part in enumerate(parts[1:]):
            turned += ("-" if at == 0 and parts[0] in LEFT_SIDES else "_") + snake(part)
        if turned == name:
            continue
        if name in BY_HAND:
            turned = BY_HAND[name]
        elif name not in definitions and (turned in tokens or turned in new.values()):
            turned += "_lem"
        new[name] = turned
    clash = False
    seen = {}
    for name, turned in new.items():
        if (turned in tokens and name not in LEMMAS and turned not in LEMMAS and name not in BY_HAND) or turned in seen:
            print(f"falls together: {name} -> {turned}" + (f" (also {seen[turned]})" if turned in seen else " (stands already)"))
            clash = True
        seen[turned] = name
    if "--list" in sys.argv:
        for name, turned in new.items():
            print(name, turned)
        return 0
    if clash:
        return 1

    def turn(m):
        word = m.group(0)
        behind_dot = m.string[m.start() - 1:m.start()] == "."
        if behind_dot and ("-" in word or word in LEMMAS):
            return word
        return new.get(word, word)

    count = 0
    for path, text in texts.items():
        if path.endswith(("/Answers.antt", "/Invariants.antt")):
            names = source_names(texts, path.split("/")[1])
            turned = WORD.sub(lambda m: made_name(m.group(0), names) if "-" in m.group(0) and (m.group(0) in made or m.string[m.start() - 1:m.start()] == ".") else turn(m), text)
        elif path.endswith(".antt"):
            turned = WORD.sub(turn, text)
        else:
            turned = "".join(line if line.lstrip().startswith("//") else re.sub(r"\b[a-z]\w*[A-Z]\w*|\b[a-z]\w*(?:-[a-z]\w*)+", turn, line) for line in text.splitlines(keepends=True))
        if turned != text:
            with open(path, "w", encoding="utf-8") as f:
                f.write(turned)
            count += 1
    print(f"{len(new)} names, {count} files")
    return 0


if __name__ == "__main__":
    raise SystemExit(main())
