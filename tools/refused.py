#!/usr/bin/env python3
"""Refuses memory and threads to programs, and looks whether they answer as they are defined.

usage: tools/refused.py [threads | memory [SCRIPT ..] | gate NUMBER]   (all of both, if nothing is said)

- Memory: each allocation of a script of `fuzz sweeps memory` is refused in turn, one in each run, on terminals of 1 to 4 rows and 1 to 6
  columns; of the script `run` (`bars run`) on one. Each run judges itself, and says that it is as defined, and where memory was refused.
  Printed are, for each script, how many runs said what; a run that says anything else is printed with the number of its allocation.
  A small library in C stands between the program and the C library's `malloc`. It is made by `cc`, or else by the kit's clang.
- Threads: `examples pieces` has a thousand pieces for as many threads as there are processors, and then a hundred that wait for one another,
  each in a thread of its own. It runs with room for all of these threads, for those of the thousand alone, and for none. (The stack of a
  thread is made as large as a gigabyte, and the room of the program as small as a number of stacks.) Where one is refused, the answer has to be
  `Memory`, with the bar where it was, and no piece may wait for ever.

With `gate` (by .ci/run) the number, a sum of the sources, chooses the script that comes first, and after three minutes no further run is begun. The programs are those
of the folder $PROGRAMS, or those that `rt ci` or `rt run` has built. The exit status is 1 if a run ends otherwise.
"""
import collections
import concurrent.futures
import os
import pathlib
import resource
import shutil
import subprocess
import sys
import tempfile
import time

TOP = pathlib.Path(__file__).resolve().parent.parent
SCRIPTS = [f"{script} {terminal}" for script in ("board", "sized-board", "lone", "sized-lone", "shared", "loop") for terminal in ("stays", "grows")] + ["run stays"]
SIZES = [(rows, cols) for rows in range(1, 5) for cols in range(1, 7)]
# seconds that a run may take, and that the gate's runs may take in all
PATIENCE, BOUND = 60, 180

# Refuses the allocation whose number is in REFUSE, counted from 1. With REFUSE=0 none is refused, and how many there were is said on
# standard error at the end. It takes no headers, since a machine may have none.
REFUSE_ONE = r"""
void *dlsym(void *, const char *);
char *getenv(const char *);
long atol(const char *);
int snprintf(char *, unsigned long, const char *, ...);
long write(int, const void *, unsigned long);
#define NEXT ((void *)-1L)
static long made, refused = -1;
static int is_refused(void) {
    if (refused < 0) {
        const char *number = getenv("REFUSE");
        refused = number ? atol(number) : 0;
    }
    return ++made == refused;
}
void *malloc(unsigned long size) {
    static void *(*real)(unsigned long);
    if (!real) real = (void *(*)(unsigned long))dlsym(NEXT, "malloc");
    return is_refused() ? 0 : real(size);
}
void *realloc(void *kept, unsigned long size) {
    static void *(*real)(void *, unsigned long);
    if (!real) real = (void *(*)(void *, unsigned long))dlsym(NEXT, "realloc");
    return is_refused() ? 0 : real(kept, size);
}
__attribute__((destructor)) static void say(void) {
    static int is_said;
    if (refused != 0 || is_said) return;
    is_said = 1;
    char line[32];
    if (write(2, line, snprintf(line, sizeof line, "%ld\n", made)) < 0) return;
}
/* So ends a program that has threads: no destructor is called then. */
void _exit(int status) {
    void (*real)(int) = (void (*)(int))dlsym(NEXT, "_exit");
    say();
    real(status);
    __builtin_unreachable();
}
"""


def built(name):
    path = pathlib.Path(os.environ.get("PROGRAMS") or TOP / "crates" / name / "out") / name
    if not path.is_file():
        sys.exit(f"no program {path}: nothing was refused")
    return path.resolve()


def library(folder):
    """The library in C, or nothing where nothing makes it."""
    kit = pathlib.Path(shutil.which("rt") or "/").resolve().parent.parent / "toolchain"
    clang = [str(kit / "bin" / "clang"), "--target=x86_64-unknown-linux-gnu", f"--sysroot={kit}", "-fuse-ld=lld", "-nostdlib"]
    source, made = pathlib.Path(folder, "refuse_one.c"), pathlib.Path(folder, "refuse_one.so")
    source.write_text(REFUSE_ONE, encoding="utf-8")
    for compiler in ([["cc"]] if shutil.which("cc") else []) + ([clang] if kit.is_dir() else []):
        if subprocess.run([*compiler, "-shared", "-fPIC", "-O1", "-fno-builtin", "-w", "-o", made, source], capture_output=True).returncode == 0:
            return made
    return None


class Memory:
    """The runs of scripts."""

    def __init__(self, made, deadline):
        self.made, self.deadline, self.program = made, deadline, built("fuzz")

    def run(self, number, words):
        """What a run says whose allocation of this number is refused."""
        told = {**os.environ, "LD_PRELOAD": str(self.made), "REFUSE": str(number)}
        return subprocess.run([self.program, "sweeps", "memory", *words], env=told, capture_output=True, text=True, timeout=PATIENCE)

    def refuse_each(self, script, size):
        """Refuses each allocation of a script on a terminal of this size: the script, how many runs said what, and which said something else."""
        words = script.split()
        counted = self.run(0, [*words, "unjudged", *size]).stderr.split()
        if not counted or not counted[-1].isdigit():
            return script, {}, [f"{script}, {size}: the allocations weren't counted: {counted[-5:]}"]
        said, faults = collections.Counter(), []
        for number in range(1, int(counted[-1]) + 1):
            if time.monotonic() > self.deadline:
                break
            run = self.run(number, [*words, "count", *size])
            text = (run.stdout + run.stderr).strip() if run.returncode == 0 else f"status {run.returncode}: {run.stdout}{run.stderr}"
            said[text] += 1
            if not text.startswith("as defined: "):
                faults.append(f"{script}, {size}, allocation {number}: {text}")
        return script, said, faults


def memory(scripts, seconds):
    """Refuses memory to these scripts in turn, and begins no run behind a number of seconds; what is otherwise."""
    with tempfile.TemporaryDirectory() as folder:
        made = library(folder)
        if made is None:
            print("no compiler for C: no memory was refused")
            return []
        start = time.monotonic()
        runs = Memory(made, start + seconds)
        with concurrent.futures.ThreadPoolExecutor(len(os.sched_getaffinity(0))) as pool:
            units = [(script, tuple(map(str, size))) for script in scripts for size in (SIZES if script != "run stays" else [()])]
            done = list(pool.map(lambda unit: runs.refuse_each(*unit), units))
    for script in scripts:
        said = sum((collections.Counter(it) for of, it, _ in done if of == script), collections.Counter())
        print(f"{script}: {sum(said.values())} allocations refused")
        print("".join(f"  {times:6} {text}\n" for text, times in sorted(said.items())), end="")
    print(f"{sum(sum(said.values()) for _, said, _ in done)} runs in {time.monotonic() - start:.0f} seconds")
    return [fault for _, _, faults in done for fault in faults]


# Threads

# the bytes of a thread's stack; the pieces of work, and the items of each
STACK, MANY, WAITING, ITEMS = 1 << 30, 1000, 100, 3


def limited(threads):
    """Sets the limits of a program that has room for a number of threads beside the first one, or for any number."""
    if threads is not None:
        resource.setrlimit(resource.RLIMIT_STACK, (STACK, resource.getrlimit(resource.RLIMIT_STACK)[1]))
        resource.setrlimit(resource.RLIMIT_AS, ((threads + 1) * STACK, (threads + 1) * STACK))


def said(threads):
    """What the program says with room for a number of threads."""
    words = [built("examples"), "pieces"]
    try:
        run = subprocess.run(words, capture_output=True, text=True, timeout=PATIENCE, preexec_fn=lambda: limited(threads))
    except subprocess.TimeoutExpired:
        return "it went on for too long"
    return run.stdout if run.returncode == 0 else f"status {run.returncode}: {run.stderr}"


def wanted(threads):
    """What it has to say: each group of pieces is done if its threads can be started, and the bar moves by its items then alone."""
    place, lines = 0, []
    for pieces, needed in (MANY, min(MANY, len(os.sched_getaffinity(0)))), (WAITING, WAITING):
        if threads is None or needed - 1 <= threads:
            lines.append(f"{pieces} pieces are done; from {place} to {place + pieces * ITEMS}\n")
            place += pieces * ITEMS
        else:
            lines.append(f"out of memory; from {place} to {place}\n")
    return "".join(lines)


def threads():
    runs = [None, len(os.sched_getaffinity(0)) + 8, 0]
    faults = [f"room for {it} threads: wanted\n{wanted(it)}got\n{said(it)}" for it in runs if said(it) != wanted(it)]
    print(f"{len(runs) - len(faults)} of {len(runs)} runs answered as their threads allow")
    return faults


def main():
    what, *words = sys.argv[1:] or ["all"]
    if what == "gate":
        first = int(words[0][:8], 16) % len(SCRIPTS)
        faults = threads() + memory(SCRIPTS[first:] + SCRIPTS[:first], BOUND)
    elif what in ("all", "threads", "memory"):
        faults = (threads() if what != "memory" else []) + (memory(words or SCRIPTS, float("inf")) if what != "threads" else [])
    else:
        sys.exit(__doc__)
    print("\n".join([*faults, f"{len(faults)} runs are otherwise"]))
    sys.exit(1 if faults else 0)


if __name__ == "__main__":
    main()
