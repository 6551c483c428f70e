# usage: python3 tests/statements.py STATEMENTS TRIED    (from the root of the repository; tests/statements.sh calls it)
#
# Holds the two papers to the tree. What is looked for, and where, is said in tests/statements.sh.
import glob
import os
import re
import sys

TOKEN = re.compile(
    r"`(?P<name>[^`]*)`"
    r"|(?P<contract>\bcontracts? of\b)"
    r"|(?P<edit>\bmust-fail\b)"
    r"|\bas (?P<row>\d+\.\d+)"
    r"|\b(?P<decision>D-\d+)\b"
    r"|(?P<path>(?<![\w/.-])[a-z][\w-]*(?:/[\w+-]+(?:\.[a-z]+)*)+)"
    r"|(?P<stop>[;:.](?=\s|$))"
)
findings = []


def find(where, what):
    findings.append(f"{where}: {what}")


def lines_of(path):
    with open(path, encoding="utf-8") as file:
        return file.read().split("\n")


# ---- what a file declares


class Source:
    """Names that a file declares: `plain` by themselves, `parts` as Record.field or Type::name. Of these `public` are pub, and `contracts` has of a
    function the words of its contract; `types` has of an .antt declaration the line of its type."""

    def __init__(self, path):
        self.path, self.lines = path, lines_of(path)
        self.plain, self.parts, self.public, self.conversions, self.contracts, self.types = set(), set(), set(), set(), {}, {}
        if path.endswith(".antt"):
            self.read_antt()
        elif path.endswith(".rt"):
            self.read_rt()

    def read_antt(self):
        block = None  # a record or data: its indentation, its name, whether it is a record, and the indentation of what is in it
        for line in self.lines:
            code = re.sub(r"(^|\s)--(\s.*)?$", "", line)
            if not code.strip():
                continue
            indent = len(code) - len(code.lstrip())
            if block and indent <= block[0]:
                block = None
            if block:
                inner = block[3] = block[3] or indent
                declared = re.match(r"\s*(?:pub )?([^\s:=(){}]+(?: [^\s:=(){}]+)*) :(\s|$)", code)
                if declared and indent == inner:
                    for name in declared[1].split():
                        self.parts.add(f"{block[1]}.{name}")
                        self.types[f"{block[1]}.{name}"] = code[declared.end():]
                        if not block[2]:
                            self.plain.add(name)
                continue
            opened = re.match(r"\s*(?:pub )?(record|data) ([^\s{]+)", code)
            if opened:
                self.plain.add(opened[2])
                block = [indent, opened[2], opened[1] == "record", 0]
                continue
            declared = re.match(r"\s*(?:(?:abbrev|unfoldable) )?(pub )?([^\s(){}]+)(?: \{[^}]*\}| \([^)]*\))* :(\s|$)", code)
            if declared:
                self.plain.add(declared[2])
                self.types[declared[2]] = code[declared.end():]
                if declared[1]:
                    self.public.add(declared[2])

    def read_rt(self):
        owner = ""  # the type of the impl, or the struct or enum that is open
        kind = ""
        for i, line in enumerate(self.lines):
            converts = re.match(r"impl From<(.+)> for (\w+) \{$", line)
            if converts and any("from_gives" in said for said in self.lines[i:i + 3]):
                name = f"{converts[2]}::from({converts[1]})"
                self.parts.add(name)
                self.conversions.add(name)
                self.contracts[name] = {"ensures"}
            opened = re.match(r"(?:pub(?:\(crate\))? )?(impl|struct|enum) (\w+)", line)
            if opened:
                kind, owner = opened[1], opened[2]
                if kind != "impl":
                    self.plain.add(owner)
                if line.endswith(";"):
                    kind = owner = ""
                continue
            if line.startswith("}"):
                kind = owner = ""
            declared = re.match(r"\s*(pub |pub\(crate\) )?(?:extern \"C\" )?(fn|const|type) (\w+)", line)
            if declared:
                name = f"{owner}::{declared[3]}" if kind == "impl" else declared[3]
                (self.parts if kind == "impl" else self.plain).add(name)
                if declared[2] == "fn":
                    if declared[1] == "pub ":
                        self.public.add(name)
                    self.contracts[name] = self.contract_from(i)
            elif kind == "struct" and (field := re.match(r"    (?:pub )?(\w+): ", line)):
                self.parts.add(f"{owner}.{field[1]}")
            elif kind == "enum" and (variant := re.match(r"    (\w+)(?: = \d+)?[,(]", line)):
                self.parts.add(f"{owner}::{variant[1]}")

    def contract_from(self, i):
        words = set()
        for line in self.lines[i:]:
            said = re.match(r"\s*(requires|ensures)\b", line)
            if said:
                words.add(said[1])
            elif line.endswith("{"):
                break
        return words

    def declares(self, name):
        if not self.path.endswith((".antt", ".rt")):
            return any(re.search(rf"(?<![\w-]){re.escape(name)}(?![\w-])", line) for line in self.lines)
        if " " in name:
            return name.split()[0] in self.plain and any((line.strip() + " ").startswith(name + " ") for line in self.lines)
        return name in self.plain or name in self.parts

    def sort_of(self, name):
        if not self.path.endswith((".antt", ".rt")):
            return "the word"
        if " " in name:
            return "a clause of the definition that begins so"
        if self.path.endswith(".rt"):
            return "a fn, struct, enum, const or type" + (", of that impl" if "::" in name else "")
        return "a field of that record" if "." in name else "a declaration, record, data or constructor"


sources = {}


def source(path):
    if path not in sources:
        sources[path] = Source(path)
    return sources[path]


def tree():
    """All specs, proofs and code, for a hint where a name is to be found."""
    for top in ("specs", "proofs", "src"):
        for kind in ("antt", "rt"):
            for path in glob.glob(f"crates/*/{top}/**/*.{kind}", recursive=True):
                yield source(path)


def short(path):
    return re.sub(r"\.antt$", "", re.sub(r"^crates/", "", path))


def elsewhere(name, path):
    there = [short(s.path) for s in tree() if s.path != path and s.declares(name)]
    longer = sorted(p for p in source(path).parts if re.split(r"::|\.", p)[-1] == name) if os.path.isfile(path) else []
    return "".join([f"; there is {', '.join(longer)}" if longer else "", f"; it is in {', '.join(there[:3])}" if there else ""])


def located(path):
    """A path as the papers write it: below crates/ without .antt, or from the root, where the endings of example data may be left out."""
    for whole in (f"crates/{path}.antt", f"crates/{path}", path):
        if os.path.exists(whole):
            return whole
    return path if glob.glob(path + ".*") else None


# ---- the papers


class Row:
    def __init__(self, line, section, header, cells):
        self.line, self.section, self.header, self.cells = line, section, header, cells
        self.number = cells[0]


def tables(paper):
    """The rows of a paper with its sections, and the paragraphs between them."""
    sections, rows, prose = [], [], []
    header, section, paragraph = None, None, None
    for n, line in enumerate(lines_of(paper), 1):
        if line.startswith("|"):
            cells = [cell.strip() for cell in line.strip()[1:-1].split("|")]
            if header is None:
                header = cells
            elif not all(re.fullmatch(r":?-+:?", cell) for cell in cells):
                if len(cells) != len(header):
                    find(f"{paper}:{n}", f"row {cells[0]}: {len(cells)} cells, and its table has {len(header)}")
                rows.append(Row(n, section, header, cells + [""] * (len(header) - len(cells))))
            continue
        header = None
        if line.startswith("#"):
            if line.startswith("## "):
                section = (n, line[3:].strip())
                sections.append(section)
            paragraph = None
        elif not line.strip() or line.startswith("    "):
            paragraph = None
        elif paragraph:
            paragraph[1] += " " + line
        else:
            paragraph = [n, line]
            prose.append(paragraph)
    return sections, rows, prose


def numbered(paper, sections, rows):
    """Sections with rows are numbered from 1, and so are the rows in each."""
    held = {row.section for row in rows}
    last = 0
    for section in sections:
        number = re.match(r"(\d+)\. ", section[1])
        if not number:
            if section in held:
                find(f"{paper}:{section[0]}", f"section \"{section[1]}\" has rows and no number")
            continue
        last += 1
        if int(number[1]) != last:
            find(f"{paper}:{section[0]}", f"section \"{section[1]}\" should be number {last}")
        want = 0
        for row in rows:
            if row.section == section:
                want += 1
                if row.number != f"{number[1]}.{want}":
                    find(f"{paper}:{row.line}", f"row {row.number}: its number should be {number[1]}.{want}")
    return {row.number for row in rows}


def check_edit(where, edit):
    crate, _, name = edit.partition("/")
    if not os.path.isfile(f"crates/{crate}/must-fail/{name}.edit"):
        find(where, f"must-fail `{edit}`: there is no crates/{crate}/must-fail/{name}.edit")


def check_text(where, text, rows, decisions):
    """A cell, or a paragraph: a name belongs to the next file named in it."""
    waiting, contract, edits = [], False, False
    for token in TOKEN.finditer(text):
        if token["contract"]:
            contract = True
        elif token["edit"]:
            edits = True
        elif token["stop"]:
            contract = edits = False
        elif token["row"]:
            if token["row"] not in rows:
                find(where, f"as {token['row']}: there is no such row, or it is this one")
        elif token["decision"]:
            if token["decision"] not in decisions:
                find(where, f"{token['decision']}: not in docs/DECISIONS.md")
        elif token["name"] is not None:
            name = token["name"]
            if re.fullmatch(r"\w+/\w+", name):
                if edits:
                    check_edit(where, name)
                else:
                    find(where, f"`{name}`: an edit stands after the word must-fail, and a path without backquotes")
            else:
                waiting.append((name, contract))
        else:
            path = located(token["path"])
            if not path:
                find(where, f"{token['path']}: there is no such file, neither below crates/ nor from the root")
            for name, asked in waiting:
                if path:
                    check_name(where, name, asked, path, token["path"])
            waiting, edits = [], False
    for name, _ in waiting:
        find(where, f"`{name}`: no file is named after it in its cell")


def check_name(where, name, asked, path, written):
    if os.path.isdir(path) or not os.path.exists(path):
        find(where, f"`{name}`, {written}: that is no single file")
    elif not source(path).declares(name):
        find(where, f"`{name}`: not in {written}; looked for {source(path).sort_of(name)}{elsewhere(name, path)}")
    elif asked and not path.endswith(".rt"):
        find(where, f"contract of `{name}`: {written} is not code")
    elif asked and "ensures" not in source(path).contracts.get(name, ()):
        find(where, f"contract of `{name}`: in {written} it is no fn with an ensures")


# ---- public functions


def libraries(kind=""):
    """Those that Rattle crates stand on, or those of a kind: `staticlib` for C."""
    for line in lines_of("crates.txt"):
        crate, *said = line.split("#")[0].split(":")[0].split() or [""]
        if crate and " ".join(said) == kind and os.path.isfile(f"crates/{crate}/src/lib.rt"):
            yield crate


def check_exports():
    """What a static library exports has the parameters and clauses of the function that it calls, and does nothing else."""
    form = re.compile(r"^pub (extern \"C\" )?fn (\w+)(\(.*\).*)\n((?:    (?:requires|ensures)\b.*\n)*)\{\n((?:.*\n)*?)\}$", re.M)
    for crate in libraries("staticlib"):
        path = f"crates/{crate}/src/lib.rt"
        text = "\n".join(lines_of(path))
        found = [m for m in form.finditer(text) if m[1]]
        if len(found) != text.count("#[unsafe(no_mangle)]"):
            find(path, "an export that is not of the form: parameters, clauses, a call")
        for _, name, head, clauses, body in (m.groups() for m in found):
            called = re.fullmatch(r"    (\w+)::(\w+)\((.*)\)\n", body)
            inner = called and next((m for m in form.finditer("\n".join(lines_of(f"crates/{called[1]}/src/lib.rt"))) if m[2] == called[2]), None)
            if not inner or (inner[3], inner[4]) != (head, clauses) or called[3].split(", ") != re.findall(r"(\w+): ", head):
                find(path, f"`{name}`: not a call of a function with the same parameters and clauses")


def exceptions():
    """Lines of docs/EXCEPTIONS.md that begin so: `f` of `crate`"""
    for n, line in enumerate(lines_of("docs/EXCEPTIONS.md"), 1):
        if entry := re.match(r"`([^`]+)` of `([^`]+)`", line):
            yield n, entry[1], entry[2]


def check_functions(paper, rows):
    public = {}
    for crate in libraries():
        for path in sorted(glob.glob(f"crates/{crate}/src/**/*.rt", recursive=True)):
            for name in source(path).public:
                public[name, short(path)] = source(path).contracts[name]
                if "requires" in source(path).contracts[name]:
                    find(path, f"`{name}`: a public function with a requires")
            for name in source(path).conversions:
                public[name, short(path)] = source(path).contracts[name]
    listed = set()
    for row in rows:
        where = f"{paper}:{row.line}: row {row.number}"
        function = re.fullmatch(r"`([^`]+)`, (\S+)", row.cells[1])
        theorem = re.fullmatch(r"`([^`]+)`, (\S+)", row.cells[2])
        if not function or not theorem:
            find(where, "a function with its file, and its theorem with its file")
            continue
        if (function[1], function[2]) in listed:
            find(where, f"`{function[1]}`, {function[2]}: has a row already")
        listed.add((function[1], function[2]))
        if (function[1], function[2]) not in public:
            find(where, f"`{function[1]}`, {function[2]}: no pub fn of a library")
        elif "ensures" not in public[function[1], function[2]]:
            find(where, f"`{function[1]}`, {function[2]}: has no ensures")
        else:
            check_decided(where, function[1], function[2], theorem[1], located(theorem[2]))
    excepted = set()
    for n, name, crate in exceptions():
        there = [key for key in public if key[0] == name and key[1].startswith(crate + "/")]
        excepted.update(there)
        if not there:
            find(f"docs/EXCEPTIONS.md:{n}", f"`{name}` of `{crate}`: no pub fn of that library")
        for key in there:
            if key in listed:
                find(f"docs/EXCEPTIONS.md:{n}", f"`{name}` of `{crate}`: stands in the table of public functions too")
    for name, path in sorted(set(public) - listed - excepted):
        find(paper, f"`{name}`, {path}: a public function with no row in the table of public functions, nor in docs/EXCEPTIONS.md")
    return listed


def check_decided(where, function, code, theorem, path):
    """The theorem is about the contract of this function: `.. f.Post ..`, where f is `Rattle.CRATE.proofs.MODULE.TYPE.FUNCTION.Reads`."""
    if not path or not os.path.isfile(path) or not source(path).declares(theorem):
        return  # said already
    crate, module = code.split("/")[0], re.sub(r"^[^/]*/src/|\.rt$", "", code)
    steps = ([] if module == "lib" else module.split("/")) + proved_as(function).split("::")
    wanted = f"Rattle.{crate}.proofs.{'.'.join(steps)}.Reads"
    said = re.search(r"Decides\w* .*?([^\s(]+)\.Post\b", "Decides" + source(path).types.get(theorem, "").partition("Decides")[2])
    alias = said and next((m[1] for line in source(path).lines if (m := re.fullmatch(rf"use (\S+) as {re.escape(said[1])}", line.strip()))), None)
    if alias != wanted:
        find(where, f"`{theorem}`, {short(path)}: is not about the contract of `{function}`; looked for Decides of {wanted}, found {alias}")
    record = theorem.rpartition(".")[0]
    if record and not any(source(path).types.get(name, "").strip() == record for name in source(path).public):
        find(where, f"`{theorem}`, {short(path)}: nothing in that file is a pub declaration of type {record}")


def proved_as(function):
    """What a proof calls a function: that of a conversion, as u8::from(State), is U8FromState::from."""
    if not (conversion := re.fullmatch(r"(\w+)::from\((.+)\)", function)):
        return function
    words = re.findall(r"\w+", conversion[2])
    return "".join(word[0].upper() + word[1:] for word in [conversion[1], "from", *words]) + "::from"


def called(name, path, public):
    """The name of a public function in its crate: with its module before it where another function has the same."""
    crate, _, module = path.partition("/src/")
    others = [p for n, p in public if n == name and p != path and p.startswith(crate + "/")]
    return f"{module[:-len('.rt')].replace('/', '::')}::{name}" if others else name


# ---- theorems that specs name


def check_promises():
    """A comment that begins with a name in backquotes, right above a statement, names its proof: `pub name` below proofs/ of the crate."""
    count = 0
    for path in sorted(glob.glob("crates/*/specs/*.antt")):
        crate = path.split("/")[1]
        first = None
        for n, line in enumerate(map(str.strip, lines_of(path)), 1):
            if line.startswith("--"):
                first = first or line
                continue
            named = first and re.match(r"-- `([^`\s]+)`(?:$|:)", first)
            stated = re.match(r"(?:abbrev pub|pub record) (\S+)(.*) : Type 0\b", line)
            if named and stated:
                count += 1
                if not proved(crate, named[1], stated[1] if not stated[2] and line.startswith("abbrev") else None):
                    find(f"{path}:{n}", f"`{named[1]}`: no pub {named[1]} : {stated[1]}, nor a pub use of it, below crates/{crate}/proofs")
            first = None
    return count


def proved(crate, name, statement):
    files = [source(path) for path in glob.glob(f"crates/{crate}/proofs/**/*.antt", recursive=True)]
    # a statement of a module with a parameter has that after it
    types = [s.types[name].strip().split(".")[-1].split(" ")[0] for s in files if name in s.public]
    if types:
        return statement is None or statement in types
    return any(line.startswith("pub use ") and re.search(rf"[{{ ]{re.escape(name)}[,}}]", line) for s in files for line in s.lines)


# ---- all of it


def main():
    statements, tried = sys.argv[1:]
    decisions = {m[1] for line in lines_of("docs/DECISIONS.md") if (m := re.match(r"## (D-\d+)\.", line))}

    sections, rows, prose = tables(statements)
    numbers = numbered(statements, sections, rows)
    for n, text in prose:
        check_text(f"{statements}:{n}", text, numbers, decisions)
    functions = []
    for row in rows:
        listed = row.header[1] == "function"
        if listed:
            functions.append(row)
        if row.header[0] != "no.":
            find(f"{statements}:{row.line}", "the first column of its table is not headed: no.")
        for cell in row.cells[1 if listed else 2:]:
            check_text(f"{statements}:{row.line}: row {row.number}", cell, numbers - {row.number}, decisions)
    if not functions:
        find(statements, "no table with a column headed: function")
    public = check_functions(statements, functions)
    check_exports()
    promises = check_promises()

    _, wrong, _ = tables(tried)
    answers = [row.cells[0] for row in wrong if row.header[0] == "function"]
    known = {f"`{called(name, path, public)}`, {path.split('/')[0]}" for name, path in public}
    for function in sorted(known):
        if answers.count(function) < 2:
            find(tried, f"{function}: a public function with less than two wrong answers")
    for function in sorted(set(answers) - known):
        find(tried, f"{function}: not in the table of public functions")
    for row in wrong:
        if row.header[-1] != "proof only":
            find(f"{tried}:{row.line}", "the last column of its table is not headed: proof only")
        elif row.cells[-1] not in ("", "yes"):
            find(f"{tried}:{row.line}", f"\"{row.cells[-1]}\" in the last column, which is yes or empty")
    named = set()
    for paper in (statements, tried):
        for n, line in enumerate(lines_of(paper), 1):
            for group in re.finditer(r"must-fail((?:(?:, | and | )`\w+/\w+`)+)", line):
                for edit in re.findall(r"`([^`]+)`", group[1]):
                    named.add(edit)
                    if paper == tried:
                        check_edit(f"{tried}:{n}", edit)
    for path in sorted(glob.glob("crates/*/must-fail/*.edit")):
        edit = f"{path.split('/')[1]}/{os.path.basename(path)[:-5]}"
        if edit not in named:
            find(tried, f"must-fail `{edit}`: {path} is named in neither paper")

    for finding in findings:
        print(finding)
    if findings:
        sys.exit(1)
    print(f"{statements}: {len(rows)} rows, {len(functions)} of them public functions; {tried}: {len(wrong)} wrong answers, {len(named)} edits; "
          f"{promises} promises of specs: each is there")


main()
