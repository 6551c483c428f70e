# usage: python3 tools/places.py [POINT..]    (from the root of the repository)
#
# Lists the places in crates/*/src that docs/DESIGN-PASS.md counts, point by point, by patterns alone: what it prints is where a reader has to look, and
# the page says what each place is. The last line of a point is its count.
import collections
import glob
import re
import sys

files = {p: open(p, encoding="utf-8").read().split("\n") for p in sorted(glob.glob("crates/*/src/*.rt"))}


def code(line):
    return re.sub(r"(^|\s)//.*$", "", line)


def matching(pattern, without=None):
    for path, lines in files.items():
        for i, line in enumerate(lines):
            text = code(line)
            if re.search(pattern, text) and not (without and re.search(without, text)):
                yield f"{path}:{i + 1}: {text.strip()}"


def signatures():
    """(place, name, parameters) of each function."""
    for path, lines in files.items():
        for i, line in enumerate(lines):
            head = re.match(r"\s*(?:pub(?:\(crate\))? )?(?:extern \"C\" )?fn (\w+)", code(line))
            if not head:
                continue
            text, j = code(line), i
            while text.count("(") > text.count(")") or "(" not in text:
                j += 1
                text += " " + code(lines[j])
            inside = text[text.index("(") + 1 : text.rindex(")")]
            inside = re.split(r"\)\s*->", inside)[0]
            yield f"{path}:{i + 1}", head[1], [p.strip() for p in re.split(r",(?![^<(\[]*[>)\]])", inside) if p.strip()]


def point_1():
    absent = r"Nothing|Outside|Bad|NoFault|Nowhere|Never|Unknown|NoOne|NoMessage|NoTimer|NoError|NoEvent|NoReply|Quiet|Refused|TurnDown|Reject"
    yield from matching(rf"^    ({absent})(\(|,)")
    yield from matching(r"^    (pub )?(good|enough|ended|fault|number|asks): ")
    numbers = "kind|choice|timer|state|message|error|event|accepted|started|stopped|member"
    yield from matching(rf"^    (pub )?({numbers}): (u8|u16|\[u8)")
    yield from matching(rf"fn .*\b({numbers}|number): u(8|16)\b")
    yield from matching(r"^(pub )?const (CALL: u16|FREE|HANDED_OVER|NO_TIMER)\b")


TYPE_WORDS = r"(?:^|_)(?:parking|parked|event|answer|call|number|field|fields|high|low|two|quad|word|wide|digit|digits|feed|local|remote|positions|lines)(?=_|$)"


def point_2():
    by_shape = collections.defaultdict(list)
    for place, name, _ in signatures():
        if name != "main":
            by_shape[re.sub(TYPE_WORDS, "_*", name)].append(f"{place}: fn {name}")
    for shape, places in sorted(by_shape.items()):
        if len(places) > 1:
            for place in places:
                yield f"{shape}  {place}"


def point_3():
    yield from matching(r"^\s*(while|loop)\b")


def point_4():
    yield from matching(r"fn (same\w*|number|of|index|is_of|is_none|wide\w*|is_outstanding)\(")
    yield from matching(r"\.0 [=!]= \w+(\.\w+)*\.0")
    yield from matching(r"fn (put|print|digit|low_digit|high_digit)(_\w+)?\(rt|fn (put|print)(_\w+)?\(out: &mut (Line|Block)|fn digit\(")


def point_5():
    facts = collections.Counter()
    for path, lines in files.items():
        for line in lines:
            if re.match(r"\s*requires\b", line):
                inside = line[line.index("{") + 1 : line.rindex("}")]
                for fact in inside.split("×"):
                    fact = re.sub(r"\.(now|old)\b", "", fact.strip().strip("()"))
                    facts[(path.split("/")[1], fact)] += 1
    for (crate, fact), n in sorted(facts.items()):
        if n >= 3:
            yield from (f"{crate}: requires {fact}" for _ in range(n))
    pairs = collections.Counter()
    for place, _, parameters in signatures():
        crate = place.split("/")[1]
        kept = sorted(re.sub(r"\s+", " ", p) for p in parameters if "self" not in p.split(":")[0])
        for i in range(len(kept)):
            for j in range(i + 1, len(kept)):
                pairs[(crate, kept[i], kept[j])] += 1
    for (crate, a, b), n in sorted(pairs.items()):
        if n >= 3:
            yield f"{crate}: {n} functions take ({a}) with ({b})"


def point_6():
    yield from matching(r"^    (pub )?(len|count|written|end): usize")
    yield from matching(r"fn .*\b(at|end|from|len|count): usize")
    for path, lines in files.items():
        arrays = []
        for i, line in enumerate(lines):
            if re.match(r"(pub(\(crate\))? )?struct ", line):
                arrays = []
            field = re.match(r"    (?:pub )?\w+: \[.*; (.*)\],$", code(line)) or re.match(r"    let mut \w+ = \[.*; (.*)\];$", code(line))
            if field and field[1] in arrays:
                yield f"{path}:{i + 1}: {line.strip()}"
            if field:
                arrays.append(field[1])
            if line.startswith("}"):
                arrays = []


def point_7():
    for path, lines in files.items():
        for i, line in enumerate(lines):
            if not re.match(r"\s*match ", code(line)):
                continue
            indent = len(line) - len(line.lstrip())
            arms = []
            for arm in lines[i + 1 :]:
                if arm.startswith(" " * indent + "}"):
                    break
                if arm.startswith(" " * (indent + 4)) and not arm.startswith(" " * (indent + 5)):
                    arms.append(code(arm))
            called = [a for a in arms if re.search(r"=> (\*at = )?[a-z_:]+\(.*\)\??,?$", a)]
            if len(called) >= 2 and len({re.search(r"=> (?:\*at = )?([a-z_:]+)", a)[1] for a in called}) >= 2:
                yield f"{path}:{i + 1}: {line.strip()}  {len(called)} arms call"


def point_8():
    for kind in ("Invariants", "Answers"):
        found = sorted(glob.glob(f"crates/*/proofs/**/{kind}.antt", recursive=True))
        lines = sum(len(open(p, encoding="utf-8").read().split("\n")) - 1 for p in found)
        yield f"{kind}.antt: {len(found)} files, {lines} lines"
    lemmas = [p for p in glob.glob("crates/*/proofs/**/*.antt", recursive=True) if not p.endswith(("Invariants.antt", "Answers.antt", "Lib.antt"))]
    lines = sum(len(open(p, encoding="utf-8").read().split("\n")) - 1 for p in lemmas)
    yield f"files of lemmas: {len(lemmas)}, {lines} lines"


points = [int(p) for p in sys.argv[1:]] or range(1, 9)
for p in points:
    found = list(globals()[f"point_{p}"]())
    print(f"== point {p}")
    print("\n".join(found))
    print(f"-- {len(found)}")
