#!/usr/bin/env python3
"""What proofs cost: the processor seconds that a run of the gate spends on each crate, or what a check spends on each function of a crate.

usage: tools/seconds.py PROCESS   (by .ci/run; it ends, and prints a table, once it is told to)
       tools/seconds.py --functions CRATE [COUNT]   (behind `rt check` in the crate's folder)
       tools/seconds.py --elapsed CRATE [COUNT]     (behind `rt check --jobs 1` there, with no `out/incremental` before)

Of the gate: every two seconds it looks at the checks and builds below this process, as Linux tells of them in /proc. A column is the crate's proof,
that of its tests, its must-fail edits, and the two builds of a program. What a check spends after the last look isn't counted, so
the sum is a little less than what the shell counts.

Of functions: a check keeps modules for each in `out/incremental`. In `Lts` are its blocks, and what each of them owns; in `Tie` what ties it
to the contracts that it calls; in `Layout` how the types that it names lie in memory. Most of a function's time goes into these three. The
greatest modules `Lts` are printed, in MB, and the sum of all. They take some 1 to 1.5 seconds a MB. Sizes don't depend on what else the machine
does. With `--elapsed` it is the time from the last module that was kept to this one, for each function as a whole and its dearest modules,
and before that for all functions by module.
"""
import os
import pathlib
import re
import signal
import sys
import time

KINDS = ("proof", "tests", "edits", "builds")
TICKS = os.sysconf("SC_CLK_TCK")


def look():
    """What the processes are: by number the parent, the words, and the seconds with those of children that have ended."""
    found = {}
    for number in filter(str.isdigit, os.listdir("/proc")):
        try:
            with open(f"/proc/{number}/stat") as it:
                fields = it.read().rpartition(")")[2].split()
            with open(f"/proc/{number}/cmdline") as it:
                words = it.read().split("\0")
            place = os.readlink(f"/proc/{number}/cwd")
        except OSError:
            continue
        found[number] = fields[1], words, sum(map(int, fields[11:15])) / TICKS, place
    return found


def is_check(words):
    return os.path.basename(words[0]) == "rattle" and words[1:2] in (["check"], ["build"]) and "--crate-name" in words


def is_below(found, number, top):
    while number in found and number != top:
        number = found[number][0]
    return number == top


def kind_of(words, place):
    if "rt-edit-" in place:
        return "edits"
    if "--crate-checked" in words:
        return "builds"
    return "tests" if "--test" in words else "proof"


def note(spent, top):
    found = look()
    for number, (parent, words, seconds, place) in found.items():
        # (a check's own copies count as its children)
        is_copy = parent in found and is_check(found[parent][1])
        if is_check(words) and not is_copy and is_below(found, number, top):
            key = number, words[words.index("--crate-name") + 1], kind_of(words, place)
            spent[key] = max(seconds, spent.get(key, 0))


def table(spent):
    crates = {}
    for (_, name, kind), seconds in spent.items():
        row = crates.setdefault(name, dict.fromkeys(KINDS, 0))
        row[kind] += seconds
    rows = sorted(crates.items(), key=lambda it: -sum(it[1].values()))
    rows.append(("all", {kind: sum(row[kind] for row in crates.values()) for kind in KINDS}))
    yield f"{'processor seconds':20}" + "".join(f"{kind:>8}" for kind in (*KINDS, "sum"))
    for name, row in rows:
        yield f"{name:20}" + "".join(f"{seconds:8.0f}" for seconds in (*row.values(), sum(row.values())))


PARTS = r"Lts|Tie|Layout|Code|Proof|Named|Reads|Mir|Statement|Kinds[-\d]*|Carried[-\d]*"


def kept(crate):
    """The newest file of each module that is kept: when it was written, its size, the function's path, and the module's kind."""
    found = {}
    for path in pathlib.Path(f"crates/{crate}/out/incremental").rglob("*.oantt"):
        name = re.sub(r"^Rattle-\w+-(proofs|specs)\.", "", path.name.removesuffix(".oantt"))
        split = re.match(rf"(.+?)\.({PARTS})(\.|$)", name)
        stat = path.stat()
        if stat.st_mtime > found.get(path.name, (0,))[0]:
            found[path.name] = stat.st_mtime, stat.st_size, *(split.group(1, 2) if split else (name, "other"))
    return sorted(found.values())


def print_sizes(modules, count):
    sizes = {}
    for _, size, function, kind in modules:
        if kind == "Lts":
            sizes[function] = sizes.get(function, 0) + size
    for name in sorted(sizes, key=sizes.get, reverse=True)[:count]:
        print(f"{sizes[name] / 1e6:6.1f}  {name}")
    print(f"{sum(sizes.values()) / 1e6:6.1f}  all {len(sizes)}")


def print_seconds(modules, count):
    kinds, functions = {}, {}
    for (before, *_), (now, _, function, kind) in zip(modules, modules[1:]):
        kind = kind.partition("-")[0]
        kinds[kind] = kinds.get(kind, 0) + now - before
        parts = functions.setdefault(function, {})
        parts[kind] = parts.get(kind, 0) + now - before
    told = lambda parts: ", ".join(f"{kind} {parts[kind]:.1f}" for kind in sorted(parts, key=parts.get, reverse=True)[:4])
    print(f"{sum(kinds.values()):6.1f}  all {len(functions)}: {told(kinds)}")
    for name in sorted(functions, key=lambda it: -sum(functions[it].values()))[:count]:
        print(f"{sum(functions[name].values()):6.1f}  {name}: {told(functions[name])}")


def functions(words):
    modules = kept(words[1])
    if not modules:
        sys.exit(f"crates/{words[1]}/out/incremental has no modules: run `rt check` there first")
    (print_seconds if words[0] == "--elapsed" else print_sizes)(modules, int(words[2]) if len(words) == 3 else 20)


def watch(process):
    spent, told = {}, []
    signal.signal(signal.SIGTERM, lambda *_: told.append(1))
    while not told and os.path.isdir(f"/proc/{process}"):
        note(spent, process)
        time.sleep(2)
    print("\n".join(table(spent)), flush=True)


def main():
    words = sys.argv[1:]
    if words[:1] in (["--functions"], ["--elapsed"]) and len(words) in (2, 3):
        functions(words)
    elif len(words) == 1:
        watch(words[0])
    else:
        sys.exit(__doc__)


main()
