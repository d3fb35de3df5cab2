#!/usr/bin/env python3
"""The program of measurements (tools/measure): builds it, and counts its instructions and allocations, which unlike times don't depend on the
machine's load.

usage: tools/measure.py build [FOLDER]
       tools/measure.py count PROGRAM [WORD ..] [-- NAME ..]
       tools/measure.py parts [--each] PROGRAM [WORD ..] NAME N
  build  proves and builds the program in a copy, FOLDER or /tmp/measure, over what `rt ci` kept of the libraries, and prints where it is. (It is no
         crate of this repository, so that the gate needn't prove it. Its sources end in `.in`, since the gate takes no other `.rt` and `.antt`
         files than those of its crates)
  count  what one operation costs by each measurement, or by those named: what a run of 2 N operations has more than one of N, divided by N.
         What measures by `PROGRAM WORD .. NAME N` is out/measure, or another program that knows the same names
  parts  what one operation costs, function by function; with --each also each instruction of the program that is run half a time or more in an
         operation, as objdump writes it

It wants Debian's packages valgrind and, for --each, binutils.
"""
import pathlib
import re
import shutil
import subprocess
import sys
import tempfile

HERE = pathlib.Path(__file__).resolve().parent
DATA = HERE / "measure" / "data"
NAMES = """
human_bytes 20000, human_count 20000, human_duration 20000, template_parse 2000, format_template 1000, wrapped_ascii 4000, wrapped_bar 4000,
wrapped_wide 4000, wrapped_colours 4000, term_feed 1024, message_draw 4000, message_draw_10 1000, log_draw 4000, board_frame 2000, tick_draw 2000,
spin_draw 2000, download_draw 2000, board_draw 2000, board_step 1000, insert_10 1000, insert_1000 100, insert_10000 20, call_10 20000,
call_10000 20000, inc_limited 20000, inc_clock 20000, tick_held 20000, message_held 20000, wrap_iter 20000, inc_front 20000, inc_board 20000,
message_board 2000
"""


def build(folder):
    copy, root = pathlib.Path(folder), HERE.parent
    if (copy / ".git").exists():
        sys.exit("not into a repository")
    crate = copy / "crates" / "measure"
    shutil.rmtree(crate, ignore_errors=True)
    for part in ("src", "proofs", "data"):
        shutil.copytree(HERE / "measure" / part, crate / part)
    for path in sorted(crate.rglob("*.in")):
        path.rename(path.with_suffix(""))
    # (without words it tells its usage)
    (crate / "status").write_text("1\n", encoding="utf-8")
    shutil.copy(root / "HANDLES", copy)
    lines = re.findall(r"^indicatif.*", (root / "crates.txt").read_text(encoding="utf-8"), re.M)
    libraries = [re.match(r"\w+", line)[0] for line in lines]
    for name in libraries:
        shutil.rmtree(copy / "crates" / name, ignore_errors=True)
        for part in ("src", "specs", "proofs"):
            shutil.copytree(root / "crates" / name / part, copy / "crates" / name / part)
    lines.append(f"measure may_wait=8: {' '.join(libraries)} anyhow")
    (copy / "crates.txt").write_text("\n".join(lines) + "\n", encoding="utf-8")
    status = subprocess.run(["rt", "ci"], cwd=copy, check=False).returncode
    print(crate / "out" / "measure")
    return status


def said(words, pattern):
    """The number that valgrind says of a run."""
    ran = subprocess.run(["valgrind", *words], cwd=DATA, capture_output=True, text=True, errors="replace", check=True)
    return int(re.search(pattern, ran.stderr)[1].replace(",", ""))


def instructions(words):
    return said(["--tool=callgrind", "--callgrind-out-file=/dev/null", *words], r"Collected : (\d+)")


def allocations(words):
    return said(["--leak-check=no", *words], r"total heap usage: ([\d,]+) allocs")


def count(program, names):
    print(f"{'name':<16} {'N':>8} {'instructions':>14} {'allocations':>12}")
    for name, many in (it.split() for it in NAMES.split(",")):
        if names and name not in names:
            continue
        if subprocess.run([*program, name, "1"], cwd=DATA, capture_output=True, check=False).returncode:
            continue
        once, twice = [*program, name, many], [*program, name, str(2 * int(many))]
        costs = [(of(twice) - of(once)) / int(many) for of in (instructions, allocations)]
        print(f"{name:<16} {many:>8} {costs[0]:>14.1f} {costs[1]:>12.1f}", flush=True)
    return 0


def counted(words, times):
    """The instructions of a run: by function, and by address."""
    with tempfile.NamedTemporaryFile() as out:
        tool = ["valgrind", "--tool=callgrind", "--dump-instr=yes", f"--callgrind-out-file={out.name}"]
        subprocess.run([*tool, *words, str(times)], cwd=DATA, check=True, capture_output=True)
        with open(out.name, encoding="utf-8", errors="replace") as file:
            return read(file)


def read(lines):
    """Of callgrind's file: a line of costs has an address, a line number and a count; what a call costs in all isn't counted here."""
    functions, places, names = {}, {}, {}
    address, of, is_call = 0, "", False
    for line in lines:
        named = re.match(r"c?fn=\((\d+)\)(?: (.*))?", line)
        if named and named[2]:
            names[named[1]] = named[2].strip()
        if named and line.startswith("fn="):
            of = names[named[1]]
        if line.startswith("calls="):
            is_call = True
        cost = re.match(r"(0x[0-9a-f]+|[+-]\d+|\*) \S+ (\d+)$", line)
        if not cost:
            continue
        if cost[1].startswith("0x"):
            address = int(cost[1], 16)
        elif cost[1] != "*":
            address += int(cost[1])
        if not is_call:
            functions[of] = functions.get(of, 0) + int(cost[2])
            places[address] = places.get(address, 0) + int(cost[2])
        is_call = False
    return functions, places


def more(less, greater, times):
    """What the second has more than the first, divided by how many times."""
    return {key: (greater[key] - less.get(key, 0)) / times for key in greater}


def listed(program):
    """The program's instructions by their addresses, each with its function."""
    text = subprocess.run(["objdump", "-d", "--no-show-raw-insn", program], check=True, capture_output=True, text=True).stdout
    found, of = {}, ""
    for line in text.splitlines():
        head = re.match(r"[0-9a-f]+ <(.*)>:$", line)
        of = head[1] if head else of
        place = re.match(r"\s*([0-9a-f]+):\s+(.*)", line)
        if place:
            found[int(place[1], 16)] = (of, place[2])
    return found


def print_each(program, places):
    """Each instruction that is run half a time or more. A program stands somewhere else in memory than in its file: by a whole page."""
    known = listed(program)
    often = {place for place, cost in places.items() if cost >= 0.5}
    shifts = {place - at for place in list(often)[:50] for at in known if (place - at) % 4096 == 0}
    shift = max(shifts, key=lambda shift: sum(place - shift in known for place in often))
    last = ""
    for place in sorted(often):
        if place - shift not in known:
            continue
        of, text = known[place - shift]
        if of != last:
            print(f"== {of}")
        last = of
        print(f"{places[place]:8.2f}  {text}")


def parts(words, each):
    times = int(words.pop())
    less, greater = counted(words, times), counted(words, 2 * times)
    functions = more(less[0], greater[0], times)
    print(f"{sum(functions.values()):8.2f}  in all")
    for of, cost in sorted(functions.items(), key=lambda item: -item[1]):
        if cost >= 0.5:
            print(f"{cost:8.2f}  {of}")
    if each:
        print_each(words[0], more(less[1], greater[1], times))
    return 0


def main(words):
    match words:
        case ["build", *folder] if len(folder) < 2:
            return build(*folder or ["/tmp/measure"])
        case ["count", _, *_]:
            at = words.index("--") if "--" in words else len(words)
            return count([shutil.which(words[1]) or str(pathlib.Path(words[1]).resolve()), *words[2:at]], words[at + 1 :])
        case ["parts", *rest] if len([word for word in rest if word != "--each"]) > 2:
            rest = [word for word in rest if word != "--each"]
            return parts([str(pathlib.Path(rest[0]).resolve()), *rest[1:]], "--each" in words)
    print(__doc__, file=sys.stderr)
    return 2


if __name__ == "__main__":
    sys.exit(main(sys.argv[1:]))
