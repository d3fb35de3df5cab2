#!/usr/bin/env python3
"""Wrong bodies: each edit of tools/edits/CRATE changes a function so that the prover has to refuse it.

usage, at the root of the repository:
  tools/edits.py check [CRATE ..]     whether each edit still applies: each old text stands just once in its file, after the edit's earlier pairs
  tools/edits.py compile [CRATE ..]   whether each edit still compiles, after `rt check` in the crates and in those below them: a wrong body has to
                                      be refused by the prover, not by its types or its borrows
  tools/edits.py try CRATE [NAME ..]  tries all edits of a crate, or these, on a copy of the repository, with what earlier checks kept
  tools/edits.py gate SECONDS         (by .ci/run, at its end, SECONDS after it began) tries the edits whose turn it is

`check` also reads the edits of crates/CRATE/must-fail. `compile` applies as many edits of a crate at once as stand apart, on a copy, and has it
read, with nothing proved: seconds to two minutes each time. Where that fails, it tries the halves. Both print the edits at fault.

The edits are cut into groups of at most eleven of one crate, and the file tools/edits/turn has the number of the group whose turn it is. Who submits
raises that number by one, so that as many gates as there are groups try all edits. As long as there is time, the gate goes on with the edits behind
its group, up to 30 of the same crate. On copies of the crate, RT_JOBS at a time, over the libraries that the gate has built, `rt check --only` tries
to prove the function in which an edit stands, or the one that its line `# in: NAME` names (an edit of a definition or a constant stands in none). It
costs half a minute to a minute of a processor, since a gate keeps no finished proofs of the crate itself. Where it is proved nevertheless, `rt
must-fail` has to say that the whole crate is refused: a contract of another function may be what the body breaks. Time never makes the gate fail:
nothing is tried if it has taken two hours so far, no edit is begun after five minutes, and a check that goes on for longer than ten minutes is stopped.

The exit status is 1 if an edit can't be applied, doesn't compile, or is proved with its whole crate.
"""
import concurrent.futures
import os
import pathlib
import re
import shutil
import signal
import subprocess
import sys
import tempfile
import time

EDITS = pathlib.Path("tools/edits")
# seconds: of the gate before its edits; of these before the last one begins; of one check
LATEST, BOUND, PATIENCE = 7200, 300, 600
# edits: of a group, and that a gate tries at most
GROUP, MOST = 11, 30


def pairs(edit):
    """The edit's (file, old, new), in order."""
    file, old = None, None
    for line in edit.read_text(encoding="utf-8").splitlines():
        word, _, text = line.partition(": ")
        if word == "file":
            file = text
        elif word == "old":
            old = text
        elif word in ("new", "new:"):
            yield file, old, text


def unfit(crate, edit):
    """What keeps an edit from being applied."""
    texts = {}
    for file, old, new in pairs(edit):
        if file not in texts:
            texts[file] = (crate / file).read_text(encoding="utf-8")
        times = texts[file].count(old)
        if times != 1:
            yield f"{edit}: stands {times} times in {file}: {old}"
        texts[file] = texts[file].replace(old, new, 1)


def check(names):
    found, kept, others = [], 0, 0
    for name in names or sorted(it.name for it in pathlib.Path("crates").iterdir()):
        crate = pathlib.Path("crates") / name
        for folder in (crate / "must-fail", EDITS / name):
            for edit in sorted(folder.glob("*.edit")):
                found += unfit(crate, edit)
                kept += folder.name == "must-fail"
                others += folder.name != "must-fail"
    print("\n".join(found + [f"{kept} edits of the gate and {others} others; {len(found)} old texts don't stand just once"]))
    return 1 if found else 0


def copied(name, folder):
    """A copy of the crate in a repository of its own, with the libraries below it and what was built of these."""
    lines = pathlib.Path("crates.txt").read_text(encoding="utf-8").splitlines()
    said = {line.split(":")[0].split()[0]: line for line in lines if ":" in line}
    names = [name, *(it for it in said[name].partition(":")[2].split() if it in said)]
    (folder / "crates.txt").write_text("".join(said[it] + "\n" for it in said if it in names), encoding="utf-8")
    shutil.copy("HANDLES", folder)
    for it in names:
        for part in ("src", "specs", "proofs", *(["out/rlib"] if it != name else [])):
            if pathlib.Path("crates", it, part).is_dir():
                shutil.copytree(pathlib.Path("crates", it, part), folder / "crates" / it / part)
    return folder / "crates" / name


def apart(crate, edits):
    """As many of these edits as can be applied together, and the others: each old text still stands just once."""
    together, others, texts = [], [], {}
    for edit in edits:
        own = dict(texts)
        for file, old, new in pairs(edit):
            text = own.get(file) or (crate / file).read_text(encoding="utf-8")
            own[file] = text.replace(old, new, 1) if text.count(old) == 1 else None
            if own[file] is None:
                break
        if None in own.values():
            others.append(edit)
        else:
            together.append(edit)
            texts = own
    return together, others


def compiles(name, edits):
    """Whether the crate is read with these edits, applied one after the other."""
    with tempfile.TemporaryDirectory() as room:
        crate = copied(name, pathlib.Path(room))
        for edit in edits:
            for file, old, new in pairs(edit):
                path = crate / file
                path.write_text(path.read_text(encoding="utf-8").replace(old, new, 1), encoding="utf-8")
        words = ["rt", "check", "--only", "", "--jobs", "1"]
        return subprocess.run(words, cwd=crate, capture_output=True, text=True, check=False).returncode == 0


def uncompiled(name, edits):
    """Those of the edits that don't compile alone."""
    if compiles(name, edits):
        return []
    if len(edits) == 1:
        return edits
    half = len(edits) // 2
    return uncompiled(name, edits[:half]) + uncompiled(name, edits[half:])


def compile_all(names):
    bad = []
    for name in names or sorted(it.name for it in EDITS.iterdir() if it.is_dir()):
        left = sorted((EDITS / name).glob("*.edit"))
        count = len(left)
        while left:
            # (an edit that goes with no other is tried alone)
            together, left = apart(pathlib.Path("crates") / name, left)
            bad += uncompiled(name, together or [left.pop()])
        print(f"{name}: {count} edits read", flush=True)
    print("\n".join([*(f"{edit} doesn't compile" for edit in bad), f"{len(bad)} edits don't compile"]))
    return 1 if bad else 0


def try_all(name, only):
    """Tries edits of a crate, all or only some, as must-fail edits, on a copy, which begins with what was kept of the crate and those below it."""
    edits = [EDITS / name / f"{it.removesuffix('.edit')}.edit" for it in only] or sorted((EDITS / name).glob("*.edit"))
    with tempfile.TemporaryDirectory() as room:
        for path in ("crates.txt", "HANDLES"):
            shutil.copy(path, room)
        lines = pathlib.Path("crates.txt").read_text(encoding="utf-8")
        below = re.search(rf"^{name}\b[^:]*:(.*)", lines, re.M)[1].split()
        for crate in pathlib.Path("crates").iterdir():
            kept = [] if crate.name in (name, *below) else ["out"]
            shutil.copytree(crate, f"{room}/crates/{crate.name}", symlinks=True, ignore=shutil.ignore_patterns("must-fail", *kept))
        folder = pathlib.Path(room) / "crates" / name / "must-fail"
        folder.mkdir()
        for edit in edits:
            shutil.copy(edit, folder)
        return subprocess.run(["rt", "must-fail", name], cwd=room, check=False).returncode


def groups():
    """Each group of edits: its crate, the edits themselves, and behind them the others of the crate."""
    for folder in sorted(it for it in EDITS.iterdir() if it.is_dir()):
        own = sorted(folder.glob("*.edit"))
        for at in range(0, len(own), GROUP):
            yield folder.name, own[at:] + own[:at]


def chosen():
    """The crate and its edits whose turn it is, and which turn of how many that is."""
    found = list(groups())
    turn = int((EDITS / "turn").read_text(encoding="utf-8")) % len(found)
    name, edits = found[turn]
    return name, edits[:MOST], f"turn {turn} of {len(found)}"


def function_of(before, module):
    """The function that a module's text ends in: with its type or its module, as a check names it, then alone. None where it ends in no function."""
    name = re.findall(r"^\s*(?:pub(?:\(crate\))? )?(?:unsafe )?fn (\w+)", before, re.M)[-1:]
    block = re.findall(r"^(?:impl\b[^{]*|(?:pub )?trait \w+|\}$)", before, re.M)[-1:]
    head = re.sub(r"->", "", block[0]) if block else ""
    while re.search(r"<[^<>]*>", head):
        head = re.sub(r"<[^<>]*>", "", head)
    found = re.match(r"(?:impl(?:\W+((?:\w+::)*\w+) for)?|(?:pub )?trait)\W+(?:\w+::)*(\w+)", " ".join(head.split()))
    # (a trait's call of a type stands under both names: `TermTermLike::flush`)
    owner = found[2] + (found[1] or "").rpartition("::")[2] if found else module
    return [f"{owner}::{it}" for it in name] + name


def applied(edit, crate):
    """The texts of the files that an edit changes, by their paths, and the function that its first pair stands in, with its type."""
    texts = {}
    place = re.findall(r"^# in: (\S+)$", edit.read_text(encoding="utf-8"), re.M)
    for file, old, new in pairs(edit):
        path = crate / file
        text = texts.get(path) or path.read_text(encoding="utf-8")
        place = place or function_of(text.partition(old)[0], crate.name if path.stem == "lib" else path.stem)
        texts[path] = text.replace(old, new, 1)
    return texts, place


def ran(words, folder):
    """A command's status and what it printed; no status where it was stopped."""
    with tempfile.TemporaryFile("w+", encoding="utf-8", errors="replace") as out:
        child = subprocess.Popen(words, cwd=folder, stdin=subprocess.DEVNULL, stdout=out, stderr=subprocess.STDOUT, start_new_session=True)
        try:
            status = child.wait(PATIENCE)
        except subprocess.TimeoutExpired:
            os.killpg(child.pid, signal.SIGKILL)
            child.wait()
            status = None
        out.seek(0)
        return status, out.read()


def tried(edit, crate):
    """What came of an edit: whether it is a fault, and what to say. The crate's copy stays as it was."""
    texts, names = applied(edit, crate)
    kept = {path: path.read_text(encoding="utf-8") for path in texts}
    if texts == kept:
        return True, "the edit changes nothing"
    if not names:
        return True, "it changes a definition or a constant: a line `# in: NAME` has to name the function that is refused"
    for path, text in texts.items():
        path.write_text(text, encoding="utf-8")
    try:
        for name in names:
            status, said = ran(["rt", "check", "--only", name, "--jobs", "1"], crate)
            counts = re.search(r"^only=(\d+) proved=(\d+)", said, re.M)
            if status is None:
                return False, f"not tried to the end: {name} took too long"
            if status and counts and counts[1] != counts[2]:
                return False, f"{name} is refused"
    finally:
        for path, text in kept.items():
            path.write_text(text, encoding="utf-8")
    (crate / "must-fail").mkdir()
    shutil.copy(edit, crate / "must-fail")
    status, said = ran(["rt", "must-fail", crate.name], crate.parent.parent)
    shutil.rmtree(crate / "must-fail")
    if status is None:
        return False, "its function alone is proved, and the whole check took too long: `tools/edits.py try` tries it"
    lines = said.strip().splitlines() or [f"status {status}"]
    return "NOT REFUSED" in said or "BAD EDIT" in said, lines[-1][:300]


def tried_in_turn(name, edits, start):
    """The count of faults of some edits of a crate, tried one after another on a copy of its own, as long as there is time; and those tried."""
    faults, done = 0, []
    with tempfile.TemporaryDirectory() as room:
        crate = copied(name, pathlib.Path(room))
        for edit in edits:
            if time.monotonic() - start > BOUND:
                break
            is_fault, said = tried(edit, crate)
            faults += is_fault
            done.append(edit)
            print(f"{name}/{edit.stem}: {'FAULT: ' if is_fault else ''}{said}", flush=True)
    return faults, done


def gate(begun):
    if begun > LATEST:
        print(f"{begun} seconds were taken so far: no wrong body was tried")
        return 0
    name, edits, turn = chosen()
    start, jobs = time.monotonic(), int(os.environ.get("RT_JOBS", 2))
    with concurrent.futures.ThreadPoolExecutor(jobs) as pool:
        parts = list(pool.map(lambda at: tried_in_turn(name, edits[at::jobs], start), range(jobs)))
    faults, done = sum(part[0] for part in parts), [edit for part in parts for edit in part[1]]
    print(f"{turn}: {len(done)} wrong bodies of {name} in {time.monotonic() - start:.0f} seconds, {faults} faults")
    left = [edit.stem for edit in edits[:GROUP] if edit not in done]
    if left:
        print(f"no time for {', '.join(left)}: let the turn stand where it is")
    return 1 if faults else 0


def main(words):
    match words:
        case ["check", *names]:
            return check(names)
        case ["compile", *names]:
            return compile_all(names)
        case ["try", name, *only]:
            return try_all(name, only)
        case ["gate", begun]:
            return gate(int(begun))
    print(__doc__, file=sys.stderr)
    return 2


if __name__ == "__main__":
    sys.exit(main(sys.argv[1:]))
