#!/usr/bin/env python3
"""Spells this repository's own definitions and lemmas in snake case.

usage: tools/snake_names.py            at the top of the repository; --check writes nothing, and --list lists what turns

It goes by spelling, over specs/, proofs/, clauses and must-fail edits. Names of types and modules stay, and so do the functions of src/,
text in quotes, and the names that the checker makes of a function's goals (those behind a dot in a function's own proof).
"""

import collections
import os
import re
import sys

WORD = re.compile(r'[^\s(){}.;,@"«»]+')
DECLARED = re.compile(r"(?m)^ *(?:(?:pub|abbrev|unfoldable|opaque|data|record|instance) +)*([^\s(){}.;,@\"«»|=λ]+)(?: +(?:\([^()]*\)|\{[^{}]*\}))* +: +(\S+)")
# A field of a record type or a constructor with several names: pub x y : T
SEVERAL = re.compile(r"(?m)^ +pub ((?:[a-z][^\s(){}.;,@\"«»|=λ:]* +)+[a-z][^\s(){}.;,@\"«»|=λ:]*) +: ")
QUIET = re.compile(r'"(?:[^"\\\n]|\\.)*"|(?<![^\s(){}.;,@"«»])--[^\n]*|//[^\n]*')
# A lemma that would have its definition's name gets this one.
OTHERWISE = {
    "body-left": "body_left_lem",
    "body-quoted": "body_quoted_lem",
    "body-sent": "body_sent_lem",
    "by-face": "by_face_lem",
    "by-free": "by_free_lem",
    "change-at": "change_at_lem",
    "change-of": "change_of_lem",
    "header-quoted": "header_quoted_lem",
    "holder-left": "holder_left_lem",
    "is-error": "is_error_lem",
    "is-face": "is_face_lem",
    "is-further": "is_further_lem",
    "is-some-of": "is_some_of_lem",
    "other-port": "other_port_lem",
    "same-protocol": "same_protocol_lem",
    "side-byte": "side_byte_lem",
    "told-by": "told_by_lem",
    "with-return": "with_return_lem",
    "given_to": "given_to_lem",
}

# Names that no definition declares: a variable, and names by which a clause calls what it imports.
BESIDES = ("arrivalOf", "goesOf", "hopsBack", "meaningOf", "the-event", "the-front")

# Types that were spelled as functions, by crate.
TYPES = {"text": {"below": "IsBelow", "up_to": "IsUpTo"}}


def snake(name):
    name = re.sub(r"(?<=[a-z0-9])([A-Z])", lambda m: "_" + m[1].lower(), name)
    return name.replace("-", "_")


def files(top):
    for folder, dirs, names in os.walk(os.path.join(top, "crates")):
        dirs[:] = sorted(d for d in dirs if d != "out")
        for it in sorted(names):
            if it.endswith((".antt", ".rt", ".edit")):
                yield os.path.join(folder, it)


def is_answer(path):
    return re.search(r"/proofs/.+/[^/]+\.antt$", path) is not None


def table(top):
    made, own = set(), set()
    for path in files(top):
        if not path.endswith(".antt"):
            continue
        text = QUIET.sub("", open(path, encoding="utf-8").read())
        for m in DECLARED.finditer(text):
            if is_answer(path) and m[2].startswith(("goal.", "Goals.", "rules")):
                made.add(m[1])
            elif m[1][:1].islower():
                own.add(m[1])
        for m in SEVERAL.finditer(text):
            own.update(m[1].split())
    rows = {it: OTHERWISE.get(it, snake(it)) for it in (own - made).union(BESIDES)}
    return {old: new for old, new in rows.items() if old != new}


def turn_words(text, rows, behind_dot):
    def one(m):
        dotted = text[m.start() - 1 : m.start()] == "."
        return m[0] if dotted and not behind_dot(m[0], text, m.start()) else rows.get(m[0], m[0])

    return WORD.sub(one, text)


def turn(path, text, rows):
    crate = re.search(r"crates/(\w+)/", path)[1]
    rows = rows | TYPES.get(crate, {})

    def behind_dot(word, whole, at):
        # behind a dot in a function's own proof stand the checker's names, and they have dashes
        return not (is_answer(path) and "-" in word)

    out, at = [], 0
    for m in QUIET.finditer(text):
        out.append(turn_words(text[at : m.start()], rows, behind_dot))
        words = {old: new for old, new in rows.items() if "-" not in old and new[0].islower()}
        out.append(m[0] if m[0].startswith('"') else re.sub(r"[\w']+", lambda w: words.get(w[0], w[0]), m[0]))
        at = m.end()
    out.append(turn_words(text[at:], rows, behind_dot))
    return "".join(out)


def clashes(top, rows):
    """Files in which a name and its new spelling both stand: there two things would have one name."""
    found = collections.defaultdict(list)
    for path in files(top):
        text = QUIET.sub("", open(path, encoding="utf-8").read())
        words = set(WORD.findall(text))
        for old in words & rows.keys():
            if rows[old] in words:
                found[old].append(path)
    return found


def main(argv):
    top = "."
    rows = table(top)
    by_new = collections.defaultdict(set)
    for old, new in rows.items():
        by_new[new].add(old)
    for new, olds in sorted(by_new.items()):
        if len(olds) > 1:
            print(f"look: {', '.join(sorted(olds))} would all be {new}")
    for old, where in sorted(clashes(top, rows).items()):
        print(f"look: {old} meets {rows[old]} in {', '.join(where[:6])}")
    print(f"{len(rows)} names")
    if "--list" in argv:
        for old in sorted(rows):
            print(f"{old}\t{rows[old]}")
    if "--check" in argv:
        return 0
    for path in files(top):
        with open(path, encoding="utf-8") as f:
            text = f.read()
        new = turn(path, text, rows)
        if new != text:
            with open(path, "w", encoding="utf-8") as f:
                f.write(new)
    return 0


if __name__ == "__main__":
    raise SystemExit(main(sys.argv[1:]))
