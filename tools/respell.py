#!/usr/bin/env python3
"""respell.py: brings the repository's own definitions, fields, constructors and lemmas to snake case, after port.py has turned the rest.

Run once at the top of the repository. A name that is declared in crates/*/specs or in a file of lemmas (crates/*/proofs, but for the folders of single
functions) and has a dash or an inner capital becomes its words joined by underscores, wherever it stands in an .antt file, in a clause of an .rt file, or in an
edit. In prose it is turned only between backticks. Rust code, inputs and outputs stay. It names each pair that would fall together, and turns strings of .antt
files too: look at both afterwards.
"""

import glob
import re
import sys

WORD = re.compile(r"[^\W\d][\w'\u2032-]*")
MARKS = ("abbrev", "unfoldable", "opaque", "pub", "private", "instance", "record", "data", "postulate", "reducible")
LEMMAS = "crates/*/proofs/"
# Names that port.py gave another ending than the rest has, and pairs that would fall together.
CHOSEN = {
    "at_least_lem": "at_least",
    "all-fit": "all_fit_lem",
    "few-places": "few_places_lem",
    "front_of": "front_of_lem",
    "front-of": "front_of_lem",
    "heldCount": "held_count_of",
    "is-lit": "is_lit_lamp",
    "kept-first": "kept_first_lem",
    "kept_second": "kept_second_lem",
    "kept-second": "kept_second_lem",
    "none-next": "none_next_lem",
    "oneClock": "has_one_clock",
    "reset_by": "reset_by_lem",
    "reset-by": "reset_by_lem",
    "second-of": "second_of_lem",
}


def snake(name):
    if name in CHOSEN:
        return CHOSEN[name]
    name = name.replace("-", "_")
    name = re.sub(r"(?<=[a-z0-9])([A-Z])", lambda m: "_" + m.group(1).lower(), name)
    return re.sub(r"^([IS])_(\d+)$", lambda m: m.group(1).lower() + "_" + m.group(2), name)


def own_files():
    """Files whose declarations are the repository's own definitions and lemmas."""
    out = glob.glob("crates/*/specs/**/*.antt", recursive=True)
    for p in glob.glob(LEMMAS + "**/*.antt", recursive=True):
        if not re.search(r"/(Proof|Invariants|Answers)\.antt$", p):
            out.append(p)
    return sorted(out)


def declared(text):
    """The names that a file declares: at the left margin, and further in fields, constructors, and what modules and `where` hold."""
    names = []
    for line in text.split("\n"):
        if not line.strip() or line.lstrip().startswith("--") or line.startswith("use "):
            continue
        words = line.split()
        while words and words[0] in MARKS:
            words.pop(0)
        if not line[0].isspace():
            if ":" in line and len(words) > 1 and WORD.fullmatch(words[0]) and words[1][:1] in (":", "(", "{", "["):
                names.append(words[0])
        elif ":" in words:
            before = words[: words.index(":")]
            if before and all(WORD.fullmatch(w) for w in before) and before[0] not in ("let", "in", "elim", "have"):
                names += before
    return names


def table():
    names = set()
    for p in own_files():
        names.update(declared(open(p, encoding="utf-8").read()))
    turned = {n: snake(n) for n in names if snake(n) != n and not n[0].isupper() or re.fullmatch(r"[IS]-\d+", n)}
    back = {}
    for old, new in sorted(turned.items()):
        if new in back:
            print(f"two names fall together: {back[new]} and {old} as {new}")
        back[new] = old
        if new in names and new not in turned:
            print(f"a name falls on another: {old} on {new}")
    return turned


def turn(text, turned):
    return WORD.sub(lambda m: turned.get(m.group(0), m.group(0)), text)


def in_backticks(text, turned):
    return re.sub(r"`[^`]*`", lambda m: turn(m.group(0), turned), text)


def turn_antt(text, turned):
    out = []
    for line in text.split("\n"):
        at = line.find("--")
        while at > 0 and not (line[at - 1].isspace() and line[at + 2 : at + 3] in (" ", "")):
            at = line.find("--", at + 1)
        if at < 0:
            out.append(turn(line, turned))
        else:
            out.append(turn(line[:at], turned) + in_backticks(line[at:], turned))
    return "\n".join(out)


def turn_rt(text, turned):
    out, depth = [], 0
    for line in text.split("\n"):
        clause = depth > 0 or re.match(r"\s*(ghost|requires|ensures|invariant)\b", line)
        if clause:
            out.append(turn(line, turned))
            depth += line.count("{") - line.count("}")
        elif line.lstrip().startswith("//"):
            out.append(in_backticks(line, turned))
        else:
            out.append(line)
    return "\n".join(out)


def turn_edit(text, turned):
    """An edit's lines follow the file that they are of. A clause of code has its own words; other lines of code have none of these names."""
    out, antt, clause = [], False, False
    for line in text.split("\n"):
        if line.startswith("file: "):
            antt = line.endswith(".antt")
        elif antt:
            line = turn(line, turned)
        elif re.match(r"(old|new):\s*(ghost|requires|ensures|invariant)\b|\+\s*(ghost|requires|ensures|invariant)\b", line):
            line = turn(line, turned)
        out.append(line)
    return "\n".join(out)


def rewrite(path, how, turned):
    with open(path, encoding="utf-8") as f:
        before = f.read()
    after = how(before, turned)
    if after != before:
        with open(path, "w", encoding="utf-8") as f:
            f.write(after)


def main():
    turned = table()
    if "--list" in sys.argv:
        for old in sorted(turned):
            print(old, turned[old])
        return
    for path in sorted(glob.glob("crates/*/*/**/*.antt", recursive=True)):
        rewrite(path, turn_antt, turned)
    for path in sorted(glob.glob("crates/*/src/**/*.rt", recursive=True)):
        rewrite(path, turn_rt, turned)
    # Edits and pages still have the spelling from before port.py, which turned some of these names itself.
    written = {n for p in own_files() for n in declared(open(p, encoding="utf-8").read())}
    edits = sorted(glob.glob("edits/*/*.edit") + glob.glob("crates/*/must-fail/*.edit"))
    pages = ["README.md", *sorted(glob.glob("docs/*.md"))]
    older = {}
    for path in edits + pages:
        for w in WORD.findall(open(path, encoding="utf-8").read()):
            if snake(w) in written and snake(w) != w:
                older[w] = snake(w)
    for path in edits:
        rewrite(path, turn_edit, older)
    prose = {w: n for w, n in older.items() if not re.fullmatch(r"[IS]-\d+", w)}
    for path in pages:
        rewrite(path, lambda t, d: re.sub(r"`[^`\n]*`", lambda m: turn(m.group(0), d), t), prose)


if __name__ == "__main__":
    main()
