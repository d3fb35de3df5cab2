#!/usr/bin/env python3
"""Whether the pages say what the gate plays, proves and runs.

usage: tools/pages.py [--write]   (at the root of the repository)

- docs/TEMPLATES.md: its tables are the rows of templates_page.txt, which `crates/rows` plays (--write writes them anew), with each key and style
  word. Files of rows: all are played. README.md: its program is a test, and it has at most 90 lines.
- "Each call" in the libraries' READMEs, and the programs of docs/PROVED.md: calls, clauses, laws and files are there. Each public call has a row (of
  a trait's calls those that answer a Result or an Option), but for plain commands of a bar, and each public name stands in the README, laws and
  worked cases aside. The table of wrong bodies names edits and callers. Commands: the same sentence at each type.
- docs/USING.md has all refusals; others that give one its number give the right one. Values of docs/DIFFERENCES.md are rows of data, tests of the
  Rust crate stand where docs/TESTING.md says, options and statuses of crates/meter/README.md and calls and lengths of docs/PORTING.md are those of
  programs.
- docs/CONTRIBUTING.md names each crate and tool. Links and paths lead to files. Names between backquotes that have an underscore, or a capital behind
  a small letter, are words of the sources, the data or the tools.
- Code on the pages and in doc comments stands in the sources: tools/examples.py.

The exit status is 1 where something differs.
"""
import collections
import functools
import pathlib
import re
import sys

from examples import LIBRARIES, README, faults_of_blocks, faults_of_examples, pages, paths, program, read, without_blocks

TEMPLATES, ROWS = "docs/TEMPLATES.md", "crates/rows/data/templates_page.txt"


def section(page, name):
    return page.partition(f"\n## {name}\n")[2].partition("\n## ")[0]


def cells_of(text):
    """The cells of each row of a text's tables, with their heads."""
    for line in text.splitlines():
        if line.startswith("| ") and not line.startswith("| ---"):
            yield [cell.strip() for cell in re.split(r"(?<!\\)\|", line)[1:-1]]


def spans(text):
    return re.findall(r"`([^`\n]*)`", text)


# Templates

HEAD = "# The tables of docs/TEMPLATES.md, written by tools/pages.py: one bar of 1,500,000 of 6,000,000 after 10 seconds, on 40 columns.\n"
# columns, template, characters, colours, tab width, position, length, message, prefix, moment, whether finished
BAR = ["40", None, "-", None, "8", "1500000", "6000000", "copying", "[1/3]", "10000000000", "0"]


def spelled(text):
    """A text as a row spells it: a space at an end is `\\s`."""
    return re.sub(r"^ | $", r"\\s", text)


def row(part, what, template, shown):
    error = re.fullmatch(r"TemplateError: unexpected character '(.)' in state (\w+)", shown)
    if error or shown == "TemplateError: width too large":
        return f"parse {template} -> " + (f"E6 {error[1]} {error[2]}" if error else "E7") + "\n"
    fields = [*BAR]
    fields[1], fields[3] = template, "1" if part.startswith("Styles") else "0"
    if part == "Without a length":
        fields[6] = "-"
    if part == "At the ends":
        fields[5:7] = re.match(r"(\d+) of (\d+)", what).groups()
    return "laid " + "\t".join(fields) + " -> " + spelled(shown + "\\n") + "\n"


def template_rows():
    for part in re.split(r"^## ", read(TEMPLATES), flags=re.M):
        for cells in re.findall(r"^\| (.*) \| `(.*)` \| `(.*)` \|$", part, re.M):
            yield part.partition("\n")[0], cells[0], *(cell.replace("\\|", "|") for cell in cells[1:])


def faults_of_templates():
    page, shown = read(TEMPLATES), "\n".join(template for _, _, template, _ in template_rows())
    if read(ROWS) != HEAD + "".join(row(*it) for it in template_rows()):
        yield f"{ROWS} has other rows than {TEMPLATES}: run tools/pages.py --write, and play them"
    for key in re.findall(r'\(codes "(\w+)", key\.', read("crates/indicatif_bar/specs/Keys.antt")):
        if not re.search(rf"\{{{key}[:}}]", shown):
            yield f"{TEMPLATES} has no row with the key {key}"
    for line in re.findall(r"^(?:colour_words|attribute_words) = .*", read("crates/indicatif_text/specs/StyleWords.antt"), re.M):
        yield from (f"{TEMPLATES} lacks the style word {word}" for word in re.findall(r'codes "(\w+)"', line) if f"`{word}`" not in page)
    data = pathlib.Path("crates/rows/data")
    for name in sorted({it.relative_to(data).as_posix() for it in data.glob("**/*.txt")} ^ set(read("crates/rows/args").split())):
        yield f"crates/rows: {name} isn't both in data and in args"


def faults_of_readme():
    if program("README.md") != program(README) or len(read("README.md").splitlines()) > 90:
        yield f"README.md has another program than {README}, or more than 90 lines"


# Calls and their clauses

Call = collections.namedtuple("Call", "module trait owner names is_marked name answer clauses head")
# facts without a body of their own, and what prints: no table has them
FACTS, PRINTED = {"laws", "cases"}, {"Display", "Debug"}


@functools.cache
def modules(crate):
    base = pathlib.Path(f"crates/{crate}/src")
    return {path.relative_to(base).with_suffix("").as_posix(): read(path) for path in sorted(base.rglob("*.rt"))}


def block_of(head):
    """What a block's head says: the trait whose calls stand there, which may be empty, and the type or trait that has them."""
    head = head.replace("->", "")
    while re.search(r"<[^<>]*>", head):
        head = re.sub(r"<[^<>]*>", "", head)
    found = re.match(r"(?:impl(?: (.*) for)?|(?:pub )?trait)\W+(?:\w+::)*(\w+)", " ".join(head.split()))
    return (found[1] or "").rpartition("::")[2], found[2]


@functools.cache
def calls(crate):
    """Each call of a crate: its module, the trait and the owner (either may be empty), all names of its block's head, whether it is marked
    public, its name, what it answers, its clauses, and its head with them."""
    found = []
    for module, text in modules(crate).items():
        lines = re.sub(r"^impl\b[^{]*", lambda head: " ".join(head[0].split()) + " ", text, flags=re.M).splitlines()
        trait, owner, names, clauses = "", "", [""], set()
        for at, line in enumerate(lines):
            call = re.match(r"\s*(pub )?(?:pub\(crate\) )?fn (\w+)", line)
            clause = re.match(r"\s*ensures ?(\w*) ?\{", line)
            if re.match(r"impl\b|(pub )?trait\b", line):
                (trait, owner), names = block_of(line), re.findall(r"\b[A-Z]\w+", line)
            elif line.startswith("}"):
                trait, owner, names = "", "", [""]
            elif call:
                head, clauses = " ".join(lines[at : at + 12]), set()
                answer = re.split(r"\{|;|\brequires\b|\bensures\b", head)[0].partition("->")[2]
                found.append(Call(module, trait, owner, names, bool(call[1]), call[2], answer, clauses, head))
            elif clause:
                clauses.add(clause[1])
    return found


@functools.cache
def open_names(crate):
    """The modules that a public path has, and the names that modules pass on of their own crate."""
    texts, found, left, names = modules(crate), set(), ["lib"], set()
    while left:
        module = left.pop()
        found.add(module)
        left += [("" if module == "lib" else module + "/") + name for name in re.findall(r"^pub mod (\w+);", texts[module], re.M)]
    for path in re.findall(r"^pub use ([^;]*);", "\n".join(texts.values()), re.M):
        if path.partition("::")[0] not in LIBRARIES:
            names |= set(re.findall(r"\w+", path[path.index("{") :] if "{" in path else path.rpartition("::")[2]))
    return found, names


def public(crate, kinds):
    """The public names of these kinds."""
    found, names = open_names(crate)
    for module in modules(crate).keys() - FACTS:
        for name in re.findall(rf"^pub (?:const )?(?:{kinds}) (\w+)", modules(crate)[module], re.M):
            if module in found or name in names:
                yield name


def public_calls(crate):
    """The public calls that a library's tables name: the trait, the owner, which may be empty, and the name."""
    types, traits, functions = (set(public(crate, kinds)) for kinds in ("struct|enum", "trait", "fn"))
    for it in calls(crate):
        if it.module in FACTS:
            continue
        if it.owner in traits or not it.trait and it.is_marked and it.owner in types or not it.owner and it.is_marked and it.name in functions:
            yield "", it.owner, it.name
        elif it.trait and it.owner in types and it.trait not in PRINTED and re.search(r"\b(Result|Option)\b", it.answer):
            yield it.trait, it.owner, it.name


PLAIN = re.compile(r"pub fn \w+[^{}]*?\bensures \{ (?:\(self\.new, result\) ≡ (obeyed) |(Obeys) |(CanAnswer) K \(Lone\.Obey \()")


@functools.cache
def plain_commands():
    """The commands of a bar that need no row: a bar's record never refuses them, and their clauses are those of all commands of their type."""
    found = set()
    for crate in LIBRARIES:
        for it in calls(crate):
            plain = PLAIN.match(it.head.strip())
            if plain:
                found.add((crate, ("BarState", "LoneBar", "ProgressBar")[plain.lastindex - 1], it.name))
    return {call for call in found if any(other[1:] == ("BarState", call[2]) for other in found)}


def faults_of_commands():
    """Each command of a bar is said in one sentence, the first of its comment, at each type that has it."""
    said = collections.defaultdict(dict)
    for crate, owner, wanted in (("indicatif_bar", "BarState", "now: Moment"), ("indicatif_bar", "LoneBar", "now: Moment"), ("indicatif", "ProgressBar", "CanAnswer")):
        for it in calls(crate):
            if it.owner == owner and it.is_marked and wanted in it.head:
                comment = re.search(rf"((?:^    ///.*\n)+)(?:^    #.*\n)*^    pub fn {it.name}\b", modules(crate)[it.module], re.M)[1]
                said[it.name][owner] = re.match(r"(.*?\.)( |$)", " ".join(re.findall(r"/// ?(.*)", comment)))[1]
    for name, sentences in sorted(said.items()):
        if "BarState" in sentences and len(set(sentences.values())) > 1:
            yield f"{name}: other sentences at {', '.join(sentences)}"


def named_calls(cell):
    """The calls that a cell names, each as an owner and a name, either of which may be empty."""
    for span in spans(cell):
        owner, _, names = span.rpartition("::")
        for name in re.findall(r"\w+", names):
            yield (name, "") if name[:1].isupper() else (owner, name)


def faults_of_row(crates, cells):
    """What is wrong in a row: its calls, then its clauses and laws, then its files."""
    known, clauses = [it for crate in crates for it in calls(crate)], set()
    laws = {it.name for it in known if it.module == "laws"}
    for owner, name in named_calls(cells[0]):
        named = [it for it in known if (not owner or owner in it.names) and (not name or it.name == name)]
        if not named and not (owner and not name and any(re.search(rf"^pub(?:\(crate\))? \w+ {owner}\b", "\n".join(modules(crate).values()), re.M) for crate in crates)):
            yield f"no call {owner}::{name}"
        clauses = clauses.union(*(it.clauses for it in named))
    for word in re.findall(r"`([a-z]\w*)`", cells[1].partition("Not: ")[0]):
        if word not in clauses | laws:
            yield f"{cells[0]} has no clause `{word}`, and there is no such law"
    for file in re.findall(r"`([^`]*\.(?:txt|rt|sh|py))`", cells[3]):
        if not any(pathlib.Path(folder, file).is_file() for folder in (".", "crates", "crates/rows/data", "crates/rows/data/front")):
            yield f"no file {file}"


def faults_of_calls():
    tables = {f"crates/{crate}/README.md": [crate] for crate in LIBRARIES} | {"docs/PROVED.md": ["bars_run", "meter_parts"]}
    named = {*plain_commands()}
    for path, crates in tables.items():
        rows = [cells for cells in cells_of(read(path)) if len(cells) == 4 and cells[0] != "Call"]
        yield from (f"{path}: {fault}" for cells in rows for fault in faults_of_row(crates, cells))
        named |= {(crates[0], *call) for cells in rows for call in named_calls(cells[0])}
    of_any = {call[1:] for call in named}
    for crate in LIBRARIES:
        page = f"crates/{crate}/README.md"
        for trait, owner, name in sorted(set(public_calls(crate))):
            is_named = {(crate, owner, name), (crate, owner, "") if trait else None} & named
            if not is_named and (not trait or (trait, name) not in of_any):
                yield f"{page} has no row of {owner}::{name}"
        text = "\n".join(spans(without_blocks(read(page))))
        for name in public(crate, "struct|enum|trait|type|fn|const"):
            if not re.search(rf"\b{name}\b(?!::)" if name.islower() else rf"\b{name}\b", text):
                yield f"{page} lacks {name}"


def faults_of_bodies():
    edits, named = {path.stem for path in pathlib.Path("tools/edits").glob("*/*.edit")}, set()
    callers = {it.name: it.clauses for it in calls("uses")}
    for caller, _, bodies in list(cells_of(section(read("docs/PROVED.md"), "Wrong bodies")))[1:]:
        named |= set(re.findall(r"`(\w+_\w+)`", bodies))
        for name, clause in re.findall(r"`(\w+)`(?:, clause `(\w+)`)?", caller):
            if name not in callers or clause and clause not in callers[name]:
                yield f"docs/PROVED.md: no such caller or clause in crates/uses: {name} {clause}"
    yield from (f"docs/PROVED.md: no edit {body} in tools/edits" for body in sorted(named - edits))


# Tables of other pages


def faults_of_refusals():
    rows = [line.partition(" -> ")[2] for line in read("crates/rows/data/refusals.txt").splitlines() if line.startswith("refusal ")]
    named = {}
    for number, name, text in re.findall(r"^\| (E\d+) \| `(\w+)` \| ([^|]*) \|", read("docs/USING.md"), re.M):
        named[number] = name
        if not any(row.startswith(number + " ") and row.endswith(" " + text) for row in rows):
            yield f"docs/USING.md: no row of refusals.txt has {number} {text}"
    variants = re.findall(r"^    #\[error\(.*\)\]\n    (\w+)", read("crates/indicatif_text/src/refusal.rt"), re.M)
    if list(named.values()) != variants or set(named) != {row.split()[0] for row in rows}:
        yield "docs/USING.md: the refusals aren't those of Refusal, in its order, and of refusals.txt"
    for path, text in pages().items():
        yield from (f"{path}: {number} isn't `{name}`" for name, number in re.findall(r"`(\w+)` \((E\d+)\)", text) if named.get(number) != name)


def wanted_rows(page):
    """The rows of data that docs/DIFFERENCES.md shows: each as several that would do."""
    for cells in list(cells_of(section(page, "Formatters")))[1:]:
        call, quotient = re.fullmatch(r"`(\w+)\((\d+)\)`", cells[1]), re.fullmatch(r"(\d+/\d+) at (\d+) decimals", cells[1])
        value = f"{call[1]} {call[2]}" if call else f"HumanFloatCount:{quotient[2]} {quotient[1]}"
        yield cells, [f"format {value} -> {cells[2].strip('`')}"]
    for cells in list(cells_of(section(page, "Templates and styles").partition("\nBoth ")[0]))[1:]:
        text, literal = re.search(r"`(.*)`", cells[1])[1], re.fullmatch(r"the literal `(.*)`", cells[2])
        parsed = f"parse {text} -> " + (f"L {spelled(literal[1])}" if literal else "E7")
        yield cells, [parsed, *(f"no_style {word} -> yes" for word in re.findall(r"[.](\w+)}", text)[:1])]
    for cells in list(cells_of(section(page, "Boards")))[1:]:
        played = re.match(r"`bars run (\d+ \d+)`: (.*)", cells[1])
        if played:
            commands, shown = ("".join(text + "\\n" for text in spans(part)) for part in (played[2], cells[2]))
            yield cells, [f"bars run {played[1]}: {commands} -> 0 {shown}"]


def faults_of_values():
    rows = {line for path in paths("rows/data/*.txt") for line in read(path).splitlines()}
    for cells, wanted in wanted_rows(read("docs/DIFFERENCES.md")):
        if not rows & set(wanted):
            yield f"docs/DIFFERENCES.md: no row has {cells[1]}, {cells[2]}"
    part = section(read("docs/TESTING.md"), "The tests of the crate")
    count = {"whole": 0, "in part": 0, "left out": 0, "drawn": 0}
    for file, *middle, last in cells_of(part):
        tests, places = (spans(last), spans(middle[0])) if len(middle) == 1 else (spans(middle[0]), spans(middle[1]))
        count["whole" if len(middle) == 1 else re.match("in part|left out|", last)[0] or "whole"] += len(tests)
        count["drawn"] += len(tests) * (file == "`render.rs`")
        for name, place in ((name, place) for name in tests for place in places):
            files = [it for it in paths(f"rows/data/**/{place}")] or paths(f"code_tests/src/{place}.rt")
            if not any(re.search(rf"^# {name}\b|#\[test\]\s*fn {name}\b", read(file), re.M) for file in files):
                yield f"docs/TESTING.md: {name} isn't in {place}"
    total = count["whole"] + count["in part"] + count["left out"]
    for number in (f"has {total} tests", f": {total - count['drawn']} of its units, and {count['drawn']} of", f" {count['whole']} of them are here",
                   f" {count['in part']} are here in part, and {count['left out']} are left out"):
        if number not in " ".join(part.split()):
            yield f"docs/TESTING.md: the table has other numbers than the text: {number}"


def faults_of_meter():
    page, source, said = read("crates/meter/README.md"), read("crates/meter/src/arguments.rt"), set()
    for cell in re.findall(r"^\| (`-[^|]*) \|", page, re.M):
        name, _, value = spans(cell)[-1].removeprefix("--").partition(" ")
        said.add((spans(cell)[0][1] if re.match(r"-\w\b", spans(cell)[0]) else "", name, bool(value)))
    given = re.findall(r'name: "([\w-]+)",\s+given: Given::(\w+)(?:\(\'(\w)\')?', source)
    for short, name, _ in sorted(said ^ {(short, name, kind != "Flag") for name, kind, short in given if kind != "Words"}):
        yield f"crates/meter: only one of README.md and src/arguments.rt has this -{short} --{name}"
    known = re.findall(r"\b(?:ExitCode::from\(|if error\.use_stderr\(\) \{ )(\d+)", read("crates/meter/src/main.rt"))
    if set(re.findall(r"^\| (\d+) \|", page, re.M)) != {"0", *known}:
        yield "crates/meter: README.md and src/main.rt have other statuses"


def length(path):
    """The lines of code of a program, without imports, comments and blank lines."""
    text = re.sub(r"^(ghost )?use [^;]*;\n", "", re.sub(r"^\s*//.*\n", "", read(path), flags=re.M), flags=re.M)
    return str(sum(1 for line in text.splitlines() if line.strip()))


def faults_of_porting():
    page = read("docs/PORTING.md")
    called = set(re.findall(r"\b(\w+)(?:::<[^(]*>)?\(", "\n".join(read(path) for path in paths("*/src/**/*.rt") if path.parts[1] not in LIBRARIES)))
    for cells in cells_of(section(page, "Calls")):
        yield from (f"docs/PORTING.md: nothing calls {name}" for name in re.findall(r"\b([A-Za-z]\w*)\(", " ".join(spans(cells[1]))) if name not in called)
    for what, crate, here, _ in list(cells_of(section(page, "How long programs are")))[1:]:
        name = spans(what)[0]
        if [crate, here] != [length(f"crates/examples/rust/{name}.rs"), length(paths(f"examples/src/**/{name}.rt")[-1])]:
            yield f"docs/PORTING.md: the programs of {name} have other lengths"


# Names, links and paths

# names of the Rust crate, of its tests that are left out, and of others
FOREIGN = set("""progress_bar in_memory draw_target WithStyle WithElapsed read_vectored write_vectored AsRef contents_formatted on_bright on_123 blink_fast AsyncSeek AsyncBufRead
    par_iter FROM_RUST Grapheme_Extend clock_gettime is_stderr_for_multi test_duration_stuff human_float_count_negative""".split())


def faults_of_names():
    page = read("docs/CONTRIBUTING.md")
    tools = [f"tools/{it.name}" for it in sorted(pathlib.Path("tools").iterdir()) if it.name != "__pycache__"]
    yield from (f"docs/CONTRIBUTING.md doesn't name {name}" for name in [*re.findall(r"^(\w+)\b.*:", read("crates.txt"), re.M), *tools] if not re.search(rf"`{name}[`/]", page))
    files = [path for pattern in ("*/src/**/*.rt", "*/specs/**/*.antt", "*/proofs/*.antt", "*/data/**/*.txt") for path in paths(pattern)]
    others = [path for path in pathlib.Path("tools").rglob("*") if path.is_file() and path.suffix in (".py", ".sh", ".in", ".edit")]
    known = FOREIGN | {word for path in [*files, *others, "crates.txt"] for word in [pathlib.Path(path).stem, *re.findall(r"\w+", read(path))]}
    for path, text in pages().items():
        yield from (f"{path}: no file {link}" for link in re.findall(r"\]\(([^)#\s]+)\)", text) if not pathlib.Path(path).parent.joinpath(link).exists())
        yield from (f"{path}: no file {word}" for word in re.findall(r"`((?:crates|docs|tools)/[\w./-]*\w)(?=[` ])", text) if not pathlib.Path(word).exists())
        words = re.findall(r"[A-Za-z]\w*\b(?!\*)", " ".join(spans(without_blocks(text)))) if path.endswith(".md") else []
        yield from (f"{path}: nothing is named {word}" for word in words if re.search(r"_|[a-z][A-Z]", word) and word not in known)


def main():
    if "--write" in sys.argv[1:]:
        pathlib.Path(ROWS).write_text(HEAD + "".join(row(*it) for it in template_rows()), encoding="utf-8")
        return 0
    checks = [check for name, check in globals().items() if name.startswith("faults_of_") and name != "faults_of_row"]
    faults = [fault for check in checks for fault in check()]
    print("\n".join(faults) or "the pages have what the gate compares")
    return 1 if faults else 0


sys.exit(main())
