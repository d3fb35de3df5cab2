#!/usr/bin/env python3
"""Whether code on the pages and in doc comments is code that is proved, played or run.

usage: tools/examples.py   (at the root of the repository; tools/pages.py does this too)

- Blocks of the pages and of the heads of the libraries stand in the sources: code in crates/*/src, `antt` in crates/*/specs, `text` in what a program
  of the gate prints or plays; an indented one in one of these or in crates.txt, or it is commands. `// ..` stands for lines that are left out. Not
  compared: `rust`, `diagram`, and `gallery`, which tools/programs.py compares.
- Examples of the libraries' doc comments: their statements stand in one file of a program or a test, an `assert_eq!(a, b)` also as `same!(rt; a, b)`
  or `a == b`, an `assert!(a)` as `holds!(rt; a)` or `a`, a `?` as `.granted(rt)` or `.expect(rt, "granted")`; `{ .. }` stands for any block, and the
  runtime may stand there by value or by reference.

The exit status is 1 where a block or an example stands nowhere.
"""
import pathlib
import re
import sys

import recipes

LIBRARIES = ["indicatif_text", "indicatif_term", "indicatif_bar", "indicatif_board", "indicatif"]
README = "crates/code_tests/src/readme.rt"


def read(path):
    return pathlib.Path(path).read_text(encoding="utf-8")


def paths(pattern):
    return sorted(pathlib.Path("crates").glob(pattern))


def pages():
    """The pages, and the heads of the libraries, by their names."""
    found = {str(path): read(path) for path in [pathlib.Path("README.md"), *sorted(pathlib.Path("docs").glob("*.md")), *paths("*/*.md")]}
    for crate in LIBRARIES:
        path = f"crates/{crate}/src/lib.rt"
        found[path] = "\n".join(line[4:] for line in read(path).splitlines() if line.startswith("//!"))
    return found


def without_blocks(text):
    return re.sub(r"^```.*?^```$", "", text, flags=re.M | re.S)


def program(path):
    """The README's program, without indentation and comments, up to the end of its last function."""
    text = re.search(r"^( *)use anyhow::Result;\n(?:.*\n)*?\1\}\n", read(path), re.M)
    lines = [line.removeprefix(text[1]) for line in text[0].splitlines()]
    return [line for line in lines if not line.strip().startswith("//") and line != "#[test]"]


# Blocks

# the first words of a line of commands; one that ends with `{`, `(`, `,` or `;` is code all the same
COMMANDS = "rt .ci/run (cd cd git mkdir for cp done echo grep rm export shopt meter producer apt-get".split()


def blocks(text):
    """The blocks of a page: their language, which is `indented` where they have no fence, and their lines."""
    text = re.sub(r"^```(.*)\n((?:.*\n)*?)```$", lambda it: "\0" + it[1] + "\n" + re.sub(r"^", "\1", it[2], flags=re.M), text, flags=re.M)
    for language, fenced, indented in re.findall(r"^\0(.*)\n((?:\1.*\n?)*)|((?:^    .*\n(?:\n(?=    ))*)+)".replace("\\1.", "\x01."), text + "\n", re.M):
        lines = fenced.replace("\1", "") or re.sub(r"^    ", "", indented, flags=re.M)
        yield (language.strip() if fenced else "indented"), [line for line in lines.splitlines() if line.strip()]


def spaceless(text, comment="//"):
    return re.sub(r"\s+", "", re.sub(rf"(^|\s){comment}.*$", "", text, flags=re.M))


def lined(text):
    """Lines without the blanks at their ends, and without empty ones."""
    return "\n" + "\n".join(line.strip() for line in text.splitlines() if line.strip()) + "\n"


def faults_of_blocks():
    code = [plain(read(path)) for path in paths("*/src/**/*.rt")] + ["#![tactic(auto)]" + plain("\n".join(program(README)))]
    specs = [spaceless(read(path), "--") for path in paths("*/specs/**/*.antt")]
    shown = [lined(re.sub(r" -> |\\n", "\n", read(path).replace("\\s", " "))) for path in [*paths("*/stdout"), *paths("rows/data/**/*.txt")]]
    shown += [lined(read(path)) for path in [*paths("rows/data/**/*.txt"), pathlib.Path("crates.txt")]]
    runs = [lined("\n".join(it)) for it in recipes.played()]
    for path, text in pages().items():
        for language, lines in blocks(text):
            kind = language.split(" ")[0]
            is_shown = lined("\n".join(lines)) in runs or any(lined("\n".join(lines)) in it for it in shown)
            parts = [it for it in map(plain, re.split(r"^\s*// \.\.$", "\n".join(lines), flags=re.M)) if it]
            is_code = bool(parts) and any(all(part in it for part in parts) for it in code)
            are_commands = all(line.split()[0] in COMMANDS and not line.endswith(("{", "(", ",", ";")) for line in lines)
            is_known = {
                "antt": any(spaceless("\n".join(lines), "--") in it for it in specs), "text": is_shown, "": is_code, "gallery": len(lines) > 1,
                "rust": True, "diagram": True, "indented": is_code or is_shown or are_commands,
            }
            if not is_known.get(kind, False) and lined("\n".join(lines)) not in runs:
                yield f"{path}: this block stands in no source: {(lines or ['(empty)'])[0]}"


# Examples of documentation comments

# Those that can't stand in code as they are: a contract, whose body needs an invariant; an index, which has to be proved.
UNRUN = ("fn add_all(done: &Done, mut worker: BarWorker) -> BarWorker // adds 1 a thousand times", "let (answer, none) = record.apply(Call::Clear, 5);")


def plain(text):
    """Code without comments, white space and commas before a bracket; a test's checks as asserts and `?`, the runtime by value."""
    text = re.sub(r",([)\]}])", r"\1", spaceless(text))
    text = re.sub(r'\.(granted\(&?rt|expect\(&?rt,"granted")\)', "?", text)
    text = re.sub(r"\bholds!\([&*]?rt;", "assert!(", re.sub(r"\bsame!\([&*]?rt;", "assert_eq!(", text))
    text = re.sub(r"(assert(?:_eq)?!\()rt;", r"\1", text)
    return re.sub(r"(?<![\w.])[&*]?rt\b", "rt", text).replace("rt.alloc()", "alloc")


def split_at(text, separator):
    """The text before and behind the last separator that stands in no bracket, or nothing."""
    depth, found = 0, ()
    for at, char in enumerate(text):
        depth += (char in "([{") - (char in ")]}")
        if depth == 0 and text.startswith(separator, at):
            found = text[:at], text[at + len(separator) :]
    return found


def statements(block):
    """The statements of an example: each as long as its brackets are open."""
    lines, depth = [], 0
    for line in block:
        code = re.sub(r"(^|\s)//.*$", "", line)
        lines.append(code)
        depth += len(re.findall(r"[({[]", code)) - len(re.findall(r"[)}\]]", code))
        if depth == 0 and "".join(lines).strip():
            yield plain("\n".join(lines)).rstrip(";")
            lines = []
    # (a bracket in a text may stay open)
    yield from filter(None, [plain("\n".join(lines)).rstrip(";")])


def spellings(statement):
    """The ways in which code may have a statement, as expressions."""
    equal, holds = re.fullmatch(r"assert_eq!\((.*)\)", statement), re.fullmatch(r"assert!\((.*)\)", statement)
    ways = [statement, "==".join(split_at(equal[1], ",")) if equal else "", holds[1] if holds else ""]
    sides = split_at(holds[1], "==") if holds else ()
    ways.append("assert_eq!({},{})".format(*sides) if sides else "")
    return [re.escape(way).replace(r"\{\.\.\}", r"\{.*?\}") for way in ways if way]


def faults_of_examples():
    code = [plain(read(path)) for path in paths("*/src/**/*.rt") if path.parts[1] not in LIBRARIES]
    for path in (path for crate in LIBRARIES for path in paths(f"{crate}/src/**/*.rt")):
        docs = re.sub(r"^(?!\s*///).*$", "", read(path), flags=re.M)
        for block in re.findall(r"^\s*/// ?```\w*\n((?:\s*///.*\n)*?)\s*/// ?```$", docs, re.M):
            lines = [line.strip().removeprefix("///").removeprefix(" ") for line in block.splitlines()]
            wanted = [spellings(it) for it in statements(lines)]
            if lines[0] not in UNRUN and not any(all(any(re.search(way, source) for way in it) for it in wanted) for source in code):
                yield f"{path}: this example stands in no code that runs: {lines[0]}"


def main():
    faults = [*faults_of_blocks(), *faults_of_examples()]
    print("\n".join(faults) or "all code stands in sources")
    sys.exit(1 if faults else 0)


if __name__ == "__main__":
    main()
