#!/usr/bin/env python3
"""Brings the names that this repository declares in antt to today's spelling: words in snake case, types in camel case.

usage: tools/respell.py [--check]        at the top of the repository; --check writes nothing and lists the names that fall together

It ran once, right after the port to a newer Rattle (docs/PORT.md). A name is turned that a file of specs/ or proofs/ declares:
  - a word in camel case gets underscores, but where it begins with a capital, as a type does: 'xorInto' is 'xor_into', 'BegunJob' stays;
  - a dash stays between two names of definitions, as in 'length-xor_into', and is else an underscore: 'xors-comm' is 'xors_comm'.
The papers' own symbols (W, TK, C, D, RC, Rnd, B) keep their letters. Strings, Rust names and what the toolchain makes keep their spelling.
"""

import os
import re
import sys

WORD = re.compile(r'[^\s(){}.;,@"«»`:\[\]|]+')
HEAD = re.compile(r"^( *)((?:(?:abbrev|unfoldable|pub|data|record|ruleset) )*)([^\s(){}.;,:]+)((?: +[({][^)}]*[)}])*) :(?: |$)(.*)")
# definitions of the library that lemmas of this repository are named after
STD = set(
    "length take drop append set replicate reverse map min max sum get_or bytes part cond table zeros nil and or xor mod shl shr rotl rotr".split()
)
# words of English before they are names
PLAIN = set("last one some agrees closing second sealing ends refused turn empty opening".split())
# what the library itself has given another name
SPELT = {"getD": "get_or"}
# where two names would fall together the lemma gets _lem
APART = {
    name: name.replace("-", "_") + "_lem"
    for name in (
        "begun-job begun-or calls-done course-of done-is key-bytes key-long lasts-for lbox-formula mac-end on-state open-out open-sealed out-by "
        "out-long parts-of rounds-of s-formula shape-of total-of up-to calls-of back_count back_is back_some bit_in block_in block_written "
        "ending_of or_bytes place_is stands_at all_right all-count cipher-long front-is is-begun is-call is-part is-spook nonce-long part-at rounds-at "
        "tag-long text-blocks text-call text-long"
    ).split()
}
# and in these files alone, since a Rust function has the name too
LOCAL = {
    "crates/isap/specs/Begun.antt": {"same_place": "same_place_lem"},
    "crates/sponge/proofs/Picked.antt": {"same_place": "same_place_lem"},
}
MADE = re.compile(r"(goal|tie)\.")
SKIP = {"invariant-loop", "decreases-loop"}


def files(root, *endings):
    for top in ("crates", "docs"):
        for folder, dirs, names in os.walk(os.path.join(root, top)):
            dirs[:] = sorted(d for d in dirs if d != "out")
            for name in sorted(names):
                if name.endswith(endings):
                    yield os.path.join(folder, name)
    for name in ("README.md",):
        if name.endswith(endings):
            yield os.path.join(root, name)


def declared(root):
    """Each name that antt text declares, with whether it is a definition and not a lemma, and whether it is a type."""
    found = {}
    for path in files(root, ".antt"):
        lines = open(path, encoding="utf-8").read().split("\n")
        for i, line in enumerate(lines):
            m = HEAD.match(line)
            if not m:
                continue
            type_ = m[5]
            for more in lines[i + 1 :]:
                if not more.startswith(m[1] + "    "):
                    break
                type_ += " " + more.strip()
            if MADE.search(type_) or m[3] in SKIP:
                continue
            kind = m[2].split()
            defines = "pub" in kind and len(m[1]) < 4 and len(m[3]) > 2 and bool({"abbrev", "unfoldable", "data", "record"} & set(kind))
            found.setdefault(m[3], [False, False])
            found[m[3]][0] |= defines
            found[m[3]][1] |= "data" in kind or "record" in kind or type_.rstrip().endswith("Type 0")
    return found


def snake(word):
    if word[:1].isupper():
        return word
    word = re.sub(r"(?<=[a-z0-9])([A-Z])", lambda m: "_" + m[1].lower(), word)
    return SPELT.get(word, word)


def table(root):
    names = declared(root)
    definitions = {n for n, (defines, _) in names.items() if defines and "-" not in n} | STD
    definitions |= {snake(n) for n in definitions} | {n.lower() for n in definitions}
    definitions -= PLAIN
    made = {}
    for name in names:
        parts = name.split("-")
        if any(not p for p in parts):
            continue
        new = snake(SPELT.get(parts[0], parts[0]))
        left = parts[0]
        for part in parts[1:]:
            word = SPELT.get(part, part)
            joined = snake(left) in definitions and snake(word) in definitions and parts[-1] != "spec"
            new += ("-" if joined else "_") + snake(word)
            left = part
        new = APART.get(name, new)
        if new != name:
            made[name] = new
    return names, made


def turned(text, made, path):
    if path.endswith(".md"):
        return re.sub(r"`[^`\n]+`", lambda m: WORD.sub(lambda w: made.get(w[0], w[0]), m[0]), text)
    quiet = re.compile(r'"(?:[^"\\\n]|\\.)*"')
    out, at = [], 0
    for m in quiet.finditer(text):
        out.append(WORD.sub(lambda w: made.get(w[0], w[0]), text[at : m.start()]))
        out.append(m[0])
        at = m.end()
    out.append(WORD.sub(lambda w: made.get(w[0], w[0]), text[at:]))
    return "".join(out)


def main():
    root = os.path.dirname(os.path.dirname(os.path.abspath(__file__)))
    check = "--check" in sys.argv[1:]
    names, made = table(root)
    seen = {}
    for name in names:
        seen.setdefault(made.get(name, name), []).append(name)
    together = {n: olds for n, olds in seen.items() if len(olds) > 1}
    for new, olds in sorted(together.items()):
        print("together:", new, "<-", ", ".join(olds))
    for path in files(root, ".antt", ".rt", ".edit", ".md"):
        text = open(path, encoding="utf-8").read()
        words = set(WORD.findall(text))
        for old in sorted(words & made.keys()):
            if made[old] in words:
                print(f"beside: {path}: {old} -> {made[old]}")
        new = turned(text, {**made, **LOCAL.get(os.path.relpath(path, root), {})}, path)
        if new != text and not check:
            with open(path, "w", encoding="utf-8") as f:
                f.write(new)
    print(f"{len(made)} names of {len(names)}")
    if check:
        for old, new in sorted(made.items()):
            print(f"{old}\t{new}")


main()
