#!/usr/bin/env python3
"""Brings the repository's own definitions and lemmas to one spelling: words in snake case, types and modules in camel case.

usage: python3 tools/spell.py      once, at the top, in the tree that the kit's port.py has just turned

A name of specs/ or proofs/ that had capitals or dashes inside gets underscores. A lemma that would then have a definition's name ends in `_lem`.
Names from src/, names of the library, strings, inputs and outputs stay. The files below proofs/ that belong to one function keep the names that
they give their own goals. Pages and must-fail edits get the new names too, where they stand in backquotes or in the text of an edit.
"""
import collections
import os
import re
import subprocess

TOKEN = re.compile(r"[^\s(){}\[\],;.:λ\"`@#\\|&$?!⌜⌝]+")
SIGNATURE = re.compile(r"^\s*(?:\|\s*)?(?:(?:abbrev|unfoldable|pub)\s+)*((?:[^\s(){}\[\],;.:]+\s+)*?[^\s(){}\[\],;.:]+)\s*:(?:\s|$)")
NAMED = re.compile(r"\b(?:let|record|data|module)\s+([^\s(){}\[\],;.:]+)")
# what port.py itself respelled, where a library had the word: pages and edits still have the old word
PORTED = """add-a add-at add-kept after-last all-after all-append all-are all-asked all-back all-fit all-more all-small all-split allOf and-both and-left
and-right answerIn as-many asked-by asked-here at-all at-each at-first at-joined at-none at-one at-other at-own at-p at-place at-table below-fails below-get
below-more below-none by-kind by-tests call-from call-long callAt callIn callOf calls-last choiceOf choose-spec closed-at closed-none countOf cut-line cut-off
decimal-digit decimal-step digit-low distinct-snoc distinct-without each-on each-stay either-way end-mark enter-spec entryRows every-append every-map
field-is fill-more filled-more finish-spec first-range first-word firstOf fit-at fold-at fold-end fold-step found-below from-place from-start front-long
goes-on good-start held-on held-spec holds-same imageOf in-left in-order in-table in-without indexAt indexOf is-free is-number isAt isNumber isOf isOver
isTaken isWritten kept-run kind-1 kind-2 kind-3 last-snoc lastAt lastBy least-first leave-spec left-out length-three length-two lengthsFrom less-one
line-after line-kept line-step line-walk lineOf linesFrom linesOf listed-at litOf lowFirst main-spec map-snoc mapped-at mark-spec move-up-spec mul-at
never-both no-call no-member no-more no-result no-start none-below none-found none-left none-of none-passes none-written not-at not-named number-append
number-is number-read number-short numberAt numberOf of-spec on-read one-fewer one-more one-of one-place one-rank one-split one-table only-one over-none
pairAt pairOf pieces-whole place-kept place-of placeOf placesOf put-fit put-other put-same put-spec rankAt rankOf record-of rising-snoc room-for run-fits
run-on runAt runningAt same-at same-count same-end same-from same-index same-kind same-length same-number same-numbers same-self same-spec same-text
same-turn second-range second-word set-more sets-more sets-over settledOf shows-same sideOf slotOf so-far start-first start-fits started-below started-none
stateOf staysOf step-back step-in stepOf stored-more sum-of table-kept take-all-spec take-more take-spec taken-of taken-out takes-first tallyOf turned-down
two-steps upTo value-spec valueOf waits-there walk-end walk-from walk-start way-back went-on whole-tells wide-from with-two withNumber without-not
written-read zero-or enum-told none-is""".split()
# lemmas that port.py had given the name of a definition: the name, and the only files where it is the lemma
LEMMAS = {
    "no_call": ["crates/fields/proofs/Ranged.antt", "crates/room/proofs/Room.antt"],
    "is_free": ["crates/order/proofs/Order.antt"],
}


def snake(name):
    name = name.replace("-", "_")
    if re.search(r"[a-z0-9][A-Z]", name):
        name = re.sub(r"(?<=[a-z])(?=\d)", "_", name)
    return re.sub(r"(?<=[a-z0-9])[A-Z]", lambda m: "_" + m[0].lower(), name)


def is_odd(name):
    return name[0].islower() and ("-" in name[1:-1] or bool(re.search(r"[a-z0-9][A-Z]", name)))


def walk(*endings):
    for folder, dirs, files in os.walk("crates"):
        dirs[:] = sorted(d for d in dirs if d != "out")
        for f in sorted(files):
            if f.endswith(endings):
                yield os.path.join(folder, f)


def read(path):
    with open(path, encoding="utf-8") as f:
        return f.read()


def split(line, mark):
    """The code of a line, and its comment with the mark."""
    m = re.search(re.escape(mark) + r"(?=\s|$)", line)
    return (line[: m.start()], line[m.start() :]) if m else (line, "")


def of_one_function(path):
    parts = path.split(os.sep)
    return parts[2] == "proofs" and len(parts) > 4


crates = set(os.listdir("crates"))
own, fields = collections.defaultdict(set), set()
for path in walk(".antt"):
    if of_one_function(path):
        continue
    record = None
    for line in read(path).split("\n"):
        code = split(line, "--")[0]
        if code.startswith("use "):
            continue
        if re.search(r"\brecord\b.*\bwhere\s*$", code):
            record = len(code) - len(code.lstrip())
        elif record is not None and code.strip() and len(code) - len(code.lstrip()) <= record:
            record = None
        m = SIGNATURE.match(code)
        found = m[1].split() if m else []
        if record is not None:
            fields.update(found)
        for name in found + NAMED.findall(code):
            own[name].add(path)

odd = {n for n in own if is_odd(n)}
definitions = {snake(n) for n in odd if "-" not in n} | {n for n in own if "_" in n}
turned = {n: snake(n) + ("_lem" if "-" in n and snake(n) in definitions else "") for n in odd}


def from_the_kit(text):
    names = set()
    for m in re.finditer(r"^use ([^\n]*)", text, re.M):
        line = m[1]
        crate = re.match(r"Rattle\.(\w+)", line)
        if not crate or crate[1] not in crates:
            listed = re.search(r"\{(.*)\}", line)
            names |= {x.strip().split(" as ")[-1] for x in listed[1].split(",")} if listed else {line.split(".")[-1].strip()}
    return names


def quoted(text, table):
    """The words in backquotes of a comment or a page, respelled."""
    return re.sub(r"`[^`\n]+`", lambda m: TOKEN.sub(lambda t: table.get(t[0], t[0]), m[0]), text)


def respell(path):
    text = read(path)
    kit = from_the_kit(text)
    table = {a: b for a, b in turned.items() if a not in kit}
    for lemma, places in LEMMAS.items():
        if path in places:
            table[lemma] = lemma + "_lem"
    inner = of_one_function(path)

    def word(m):
        after_dot = m.start() > 0 and m.string[m.start() - 1] == "."
        if inner and after_dot and m[0] not in fields:
            return m[0]
        return table.get(m[0], m[0])

    out = []
    for line in text.split("\n"):
        code, comment = split(line, "--")
        camel = {a: b for a, b in table.items() if "-" not in a}
        comment = quoted(re.sub(r"(?<![\w.`-])[a-z][\w']*", lambda m: camel.get(m[0], m[0]), comment), table)
        out.append(TOKEN.sub(word, code) + comment)
    return "\n".join(out)


def respell_source(path):
    """In src/ the names of specs/ stand in `ghost use`, in clauses and in comments alone; no word of Rust has a capital or a dash inside."""
    text = read(path)
    camel = {a: b for a, b in turned.items() if "-" not in a}
    return re.sub(r'"(?:\\.|[^"\\])*"|[A-Za-z_][\w\']*', lambda m: m[0] if m[0][0] == '"' else camel.get(m[0], m[0]), text)


new = {}
for path in walk(".antt"):
    new[path] = respell(path)
for path in walk(".rt"):
    new[path] = respell_source(path)
everywhere = turned | {n: snake(n) for n in PORTED}
for path in walk(".edit"):
    lines = []
    for line in read(path).split("\n"):
        if line.startswith(("old:", "new:")):
            line = TOKEN.sub(lambda t: everywhere.get(t[0], t[0]), line)
        lines.append(quoted(line, everywhere))
    new[path] = "\n".join(lines)
pages = subprocess.run(["git", "ls-files", "README.md", "docs", "include", "man", "tests", "examples"], capture_output=True, text=True, check=True).stdout.split()
for path in pages:
    if path.endswith(".md"):
        new[path] = quoted(read(path), everywhere)

changed = 0
for path, text in new.items():
    if text != read(path):
        changed += 1
        with open(path, "w", encoding="utf-8") as f:
            f.write(text)
print(f"spell: {len(turned)} names, {changed} files")
