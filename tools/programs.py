#!/usr/bin/env python3
"""Runs programs in a terminal and in a shell, by tables of commands, and compares what they show and answer.

usage: tools/programs.py gate                          by .ci/run, behind `rt ci`
       tools/programs.py WHAT ..                       by hand, of these:
         gallery [--write] [PAGE ..]  each picture of docs/TEMPLATES.md and crates/meter/README.md, in tmux; --write writes them anew
         statuses                     the table COMMANDS: what programs say, hand on, and end with; `meter` beside `pv`
         others                       what another program writes while `meter` goes on has a row of its own, in tmux
         storms [COUNT]               lines that 64 threads write above bars (`examples storm`), in tmux: each has to stand alone in its row
         writes                       how often `examples still` writes to a terminal: strace counts thirty drawings, in tmux
         turned                       a wrong value in each file of rows: it has to be reported, with its line
         race [TURNS]                 2 GiB of zeros through `meter`, `pv` and `cat`, hidden and in tmux: how long they take

A block `gallery COLSxROWS WHEN ..` is a picture: a prompt and a command, and what stands below it. WHEN is `end`, where the prompt is back, or
a number of seconds; behind several of them the block has what stands at each, behind a line that says when. In a block `gallery ~ ..` digits
and the lengths of bars aren't compared. The shell exports COLUMNS and LINES, unless `untold` stands before the size.

The gate runs the commands of those pictures of docs/TEMPLATES.md that are the same in each run, behind a pseudo terminal. The program `rows`
tells what cells show of the bytes; what a program writes before it sleeps has to come before what it writes behind that. A program with coloured
bars is run in four environments. `bars show` has to draw at least 150 times, and each line that the threads of `examples storm` write has to come
once. And `examples lost_terminal` runs as under `nohup`: its terminal is closed under a board with a ticker and a
log, or under a bar, or takes no more bytes. Each time it has to do all its steps. A machine without pseudo terminals says so, and nothing is compared.

The programs are those of the folder $PROGRAMS, or those that `rt ci` has built; by hand one that isn't there is built by `rt run`. By hand it
wants Debian's packages tmux, pv and strace, as far as a run names them. The exit status is 1 if anything is otherwise.
"""
import collections
import concurrent.futures
import contextlib
import fcntl
import os
import pathlib
import re
import select
import shlex
import shutil
import signal
import statistics
import struct
import subprocess
import sys
import tempfile
import termios
import time

from real_terminal import Tmux, trimmed, unescaped

TOP = pathlib.Path(__file__).resolve().parent.parent
PAGES = [TOP / "docs" / "TEMPLATES.md", TOP / "crates" / "meter" / "README.md"]
DATA = TOP / "crates" / "rows" / "data"
BLOCK = re.compile(r"^```gallery (~ )?(untold )?(\d+)x(\d+) ([^\n]*)\n\$ ([^\n]*)\n(.*?)^```$", re.M | re.S)
# a program, and words at which it succeeds, by which `rt run` builds it
BUILT_BY = {"bars": ["demo"], "examples": ["fine"], "meter": ["--help"], "rows": ["data/limiters.txt"]}
# seconds that a command may take, and bytes that it may write
PATIENCE, MOST = 60, 1 << 20


def built(name):
    """Where the program of this name stands; by hand it is built if it is missing."""
    folder = os.environ.get("PROGRAMS")
    path = pathlib.Path(folder) / name if folder else TOP / "crates" / name / "out" / name
    if not path.is_file() and not folder and sys.argv[1] != "gate":
        subprocess.run(["rt", "run", "--", *BUILT_BY[name]], cwd=TOP / "crates" / name, stdout=subprocess.DEVNULL, stdin=subprocess.DEVNULL, check=True)
    if not path.is_file():
        sys.exit(f"no program {path}: nothing was compared")
    return path.resolve()


@contextlib.contextmanager
def room(*programs):
    """A folder with these programs, and the files that commands name."""
    with tempfile.TemporaryDirectory() as name:
        folder = pathlib.Path(name)
        for program in programs:
            (folder / program).symlink_to(built(program))
        (folder / "disk.iso").write_bytes(bytes(3 << 20))
        (folder / "bytes").write_bytes(os.urandom(1_000_000))
        (folder / "lines").write_text("one\ntwo\nthree\n")
        (folder / "both").write_bytes((folder / "bytes").read_bytes() + (folder / "lines").read_bytes())
        (folder / "half").write_bytes(bytes(5 << 20))
        (folder / "empty").touch()
        (folder / "heading").write_text("# a heading\n")
        (folder / "other").write_text("format HumanCount 1000 -> 1000\n")
        # a producer: 6 MiB in 1.2 seconds, nothing for 3 seconds, 4 MiB in 0.8
        pieces = "piece() { head -c 1M /dev/zero; sleep 0.2; }\nfor turn in 1 2 3 4 5 6; do piece; done; sleep 3\nfor turn in 1 2 3 4; do piece; done\n"
        (folder / "slow").write_text("#!/bin/sh\n" + pieces)
        (folder / "slow").chmod(0o755)
        yield folder


# Pictures


class Picture:
    """A picture: where it stands, its terminal's size, whether the shell exports that, when it is taken, its command, what is shown, and
    whether digits and lengths are compared."""

    def __init__(self, page, block):
        about, untold, columns, rows, moments, self.command, shown = block.groups()
        self.place = f"{page.name}, line {block.string.count(chr(10), 0, block.start()) + 1}"
        self.columns, self.rows, self.is_told, self.moments = int(columns), int(rows), not untold, moments.split()
        self.head, self.is_exact, self.shown = block[0].partition("\n")[0], not about, trimmed(shown)

    def size(self):
        return {"COLUMNS": str(self.columns), "LINES": str(self.rows)} if self.is_told else {}


def pictures_of(page):
    return [Picture(page, block) for block in BLOCK.finditer(page.read_text(encoding="utf-8"))]


# a program that sleeps between its draws; one with coloured bars on standard error, and what these show in any case
SLEEPS, COLOURED, IN_ANY_COLOUR = "examples log_bridge", "examples ported", b"22.05 MiB"
# by what the environment says beside `TERM=xterm`, whether they are coloured; what else it has only where it is told
ASKED = [({}, True), ({"NO_COLOR": "1"}, False), ({"CLICOLOR": "0"}, False), ({"NO_COLOR": "1", "CLICOLOR_FORCE": "1"}, True)]
TOLD_NAMES = {"NO_COLOR", "CLICOLOR", "CLICOLOR_FORCE", "COLUMNS", "LINES"}
# pictures of docs/TEMPLATES.md that the gate passes over
PASSED_OVER = 4


class Run:
    """What a command wrote to a terminal, and how it ended where that isn't by itself."""

    def __init__(self, picture, folder, asked=()):
        ours, theirs = os.openpty()
        fcntl.ioctl(theirs, termios.TIOCSWINSZ, struct.pack("HHHH", picture.rows, picture.columns, 0, 0))
        others = {name: value for name, value in os.environ.items() if name not in TOLD_NAMES}
        told = {"LC_ALL": "C.UTF-8", "TERM": "xterm", "PATH": f"{folder}:{os.environ['PATH']}"}
        ends = {"stdin": theirs, "stdout": theirs, "stderr": theirs, "start_new_session": True}
        child = subprocess.Popen(["bash", "-c", picture.command], cwd=folder, env={**others, **picture.size(), **told, **dict(asked)}, **ends)
        os.close(theirs)
        parts, is_ended = read_to_end(ours)
        os.close(ours)
        if not is_ended:
            os.killpg(child.pid, signal.SIGKILL)
        status = child.wait(PATIENCE)
        self.bytes, self.fault = b"".join(parts), None
        if not is_ended:
            self.fault = "stopped: it went on for too long"
        elif not 0 <= status < 128:
            self.fault = f"status {status}"
        elif picture.command == SLEEPS and len(parts) < 2:
            self.fault = "all came at once"


def read_to_end(terminal, most=MOST):
    """The bytes that come until nobody can write any more, as they come; and whether that was in time."""
    parts, end = [], time.monotonic() + PATIENCE
    while sum(map(len, parts)) < most and select.select([terminal], [], [], max(0, end - time.monotonic()))[0]:
        try:
            part = os.read(terminal, 65536)
        except OSError:
            # (so Linux says that nobody has the other end)
            part = b""
        if not part:
            return parts, True
        parts.append(part)
    return parts, False


def spelled(byte):
    """A byte as a row spells it."""
    char = chr(byte)
    return char if " " < char <= "~" and char != "\\" else f"\\x{byte:02x}"


def cells_of(pictures, runs):
    """What cells show after each run and the shell's prompt, as the program `rows` tells. They know no private modes of DEC."""
    with tempfile.TemporaryDirectory() as folder:
        with open(os.path.join(folder, "asked"), "w", encoding="utf-8") as file:
            for picture, run in zip(pictures, runs):
                fed = "".join(map(spelled, re.sub(rb"\x1b\[\?\d+[hl]", b"", run.bytes) + b"$"))
                file.write(f"cells {picture.rows} {picture.columns}; feed {fed}; picture -> ?\n")
        told = subprocess.run([built("rows"), "asked"], cwd=folder, capture_output=True, text=True, timeout=PATIENCE).stdout
    return [trimmed(unescaped(it).decode()) for it in re.findall(r"^asked, line \d+: [^\n]*\n  wanted \?\n  got ([^\n]*)", told, re.M)]


def wrongly_coloured(picture, folder):
    """The environments in which the program's bars have no colours though they should, or have some though they shouldn't, and why."""
    for asked, are_wanted in ASKED:
        run = Run(picture, folder, asked)
        if run.fault or IN_ANY_COLOUR not in run.bytes:
            yield f"{COLOURED}, environment {asked}: {run.fault or 'no bar is shown'}"
        elif not (b"\x1b[36m" in run.bytes if are_wanted else not re.search(rb"\x1b\[[\d;]*m", run.bytes)):
            yield f"{COLOURED}, environment {asked}: {'no colours' if are_wanted else 'colours'}"


def gate():
    """The pictures that are the same in each run, the colours, a program that is drawn live, and the lost terminal."""
    try:
        for end in os.openpty():
            os.close(end)
    except OSError:
        print("no pseudo terminal on this machine: nothing was compared")
        return []
    found = pictures_of(PAGES[0])
    pictures = [it for it in found if it.is_exact and it.moments == ["end"] and it.command != "readme"]
    with room("bars", "examples", "meter") as folder, concurrent.futures.ThreadPoolExecutor(4) as pool:
        coloured = next(it for it in found if it.command == COLOURED)
        colours, live = pool.submit(lambda: list(wrongly_coloured(coloured, folder))), pool.submit(lively)
        runs = list(pool.map(lambda it: Run(it, folder), pictures))
        faults = colours.result() + live.result() + stormy()
    for picture, run, rows in zip(pictures, runs, cells_of(pictures, runs), strict=True):
        if run.fault or rows != picture.shown:
            faults.append(f"{picture.place}: {picture.command}\n-- the page\n{picture.shown}\n-- the program ({run.fault or 'ended'})\n{rows}")
    if len(found) - len(pictures) != PASSED_OVER:
        faults.append(f"{len(found) - len(pictures)} pictures were passed over, {PASSED_OVER} are to be")
    faults += [f"lost terminal, {under}: {fault}" for under, fault in lost_terminals() if fault]
    print(f"{len(pictures)} pictures, {len(ASKED)} environments, {len(CLOSED) + 1} lost terminals: {len(faults)} are otherwise")
    return faults


# how often `bars show` has to draw at least: it has 200 frames, of which each has a moment of its own
FRAMES = 150


def lively():
    """How often `bars show` draws on a terminal of its own, where that is too rarely or it ends otherwise than it should."""
    ours, theirs = os.openpty()
    fcntl.ioctl(theirs, termios.TIOCSWINSZ, struct.pack("HHHH", 24, 80, 0, 0))
    others = {name: value for name, value in os.environ.items() if name not in TOLD_NAMES}
    ends = {"stdin": theirs, "stdout": theirs, "stderr": theirs, "start_new_session": True, "preexec_fn": lambda: fcntl.ioctl(0, termios.TIOCSCTTY, 0)}
    try:
        child = subprocess.Popen([built("bars"), "show"], env={**others, "TERM": "xterm"}, **ends)
    except subprocess.SubprocessError:
        print("no terminal of its own for a program on this machine: bars show wasn't looked at")
        return []
    os.close(theirs)
    parts, is_ended = read_to_end(ours)
    os.close(ours)
    if not is_ended:
        os.killpg(child.pid, signal.SIGKILL)
    status, drawn = child.wait(PATIENCE), b"".join(parts).count(b"\x1b[?2026h")
    return [] if status == 0 and drawn >= FRAMES else [f"bars show: {drawn} drawings, status {status}"]


def written_in(said):
    """The lines that `examples storm` says that its threads have written."""
    rounds = collections.defaultdict(list)
    for row in said:
        if re.match(r"^\d+ \d+$", row):
            rounds[row.split()[0]].append(int(row.split()[1]))
    return {f"line {target} {thread} {step}" for target, counts in rounds.items() for thread, most in enumerate(counts) for step in range(most)}


def stormy():
    """What `examples storm` does otherwise than it should: each line of its threads comes once, and none is missed."""
    ours, theirs = os.openpty()
    fcntl.ioctl(theirs, termios.TIOCSWINSZ, struct.pack("HHHH", 24, 80, 0, 0))
    with tempfile.TemporaryFile() as file:
        told = {**os.environ, "TERM": "xterm", "COLUMNS": "80", "LINES": "24"}
        child = subprocess.Popen([built("examples"), "storm"], stdin=subprocess.DEVNULL, stdout=file, stderr=theirs, env=told)
        os.close(theirs)
        parts, is_ended = read_to_end(ours, 64 * MOST)
        os.close(ours)
        if not is_ended:
            child.kill()
        status = child.wait(PATIENCE)
        file.seek(0)
        said = file.read().decode().splitlines()
    written, found = written_in(said), collections.Counter(it.decode() for it in re.findall(rb"line \d+ \d+ \d+", b"".join(parts)))
    bad = sorted(it for it in written | set(found) if found[it] != (it in written))
    ended = said[-1:] == ["missed 0"] and status == 0
    return [] if written and ended and not bad else [f"examples storm: {len(written)} lines, {bad[:5]}, {said[-1:]}, status {status}"]


# A terminal that goes away: after these bytes, or without taking any

CLOSED = {"a board, its ticker and its log": b"step 3", "a bar": b"/30"}


def lost(stops, wanted):
    """How the program ended otherwise than it should, if it did: its terminal was closed behind these bytes, or took none."""
    ours, theirs = os.openpty()
    if stops:
        fcntl.fcntl(theirs, fcntl.F_SETFL, fcntl.fcntl(theirs, fcntl.F_GETFL) | os.O_NONBLOCK)
        termios.tcflow(theirs, termios.TCOOFF)
    ends = {"stdin": subprocess.DEVNULL, "stdout": subprocess.PIPE, "stderr": theirs, "start_new_session": True}
    told = {**os.environ, "TERM": "xterm", "COLUMNS": "40", "LINES": "10"}
    ignored = lambda: signal.signal(signal.SIGHUP, signal.SIG_IGN)
    child = subprocess.Popen([built("examples"), "lost_terminal"], env=told, preexec_fn=ignored, **ends)
    got, end = b"", time.monotonic() + PATIENCE
    if not stops:
        os.close(theirs)
        while wanted not in got and select.select([ours], [], [], max(0, end - time.monotonic()))[0]:
            got += os.read(ours, 65536)
        os.close(ours)
    try:
        out, _ = child.communicate(timeout=PATIENCE)
    except subprocess.TimeoutExpired:
        os.killpg(child.pid, signal.SIGKILL)
        return "stopped: it went on for too long"
    if stops:
        os.close(theirs)
        os.close(ours)
    if not stops and wanted not in got:
        return f"{wanted!r} didn't come"
    return None if (child.returncode, out) == (0, b"50 steps done\n") else f"status {child.returncode}, printed {out!r}"


def lost_terminals():
    yield from ((under, lost(False, wanted)) for under, wanted in CLOSED.items())
    yield "a terminal that takes no more bytes", lost(True, b"")


# Pictures in tmux


class Pane:
    """A pane of tmux, in which a shell waits for commands."""

    def __init__(self, tmux, columns, rows, folder, told):
        self.tmux, self.columns = tmux, columns
        shell = f"PATH={folder}:$PATH PS1='$ ' exec env -u COLUMNS -u LINES {told} bash --norc --noprofile"
        tmux.run("new-session", "-d", "-s", "shown", "-x", str(columns), "-y", str(rows), "-c", str(folder), shell)
        time.sleep(0.5)

    def type(self, command):
        self.tmux.run("send-keys", "-t", "shown", "-l", command)
        self.tmux.run("send-keys", "-t", "shown", "Enter")

    def rows(self, *words):
        return [row.rstrip(" ") for row in self.tmux.run("capture-pane", "-p", *words, "-t", "shown").stdout.split("\n")]

    def wait(self, since, moment):
        """Until a number of seconds behind the moment, or until the prompt is back."""
        if moment != "end":
            time.sleep(max(0, since + float(moment) - time.monotonic()))
            return
        for turn in range(300):
            time.sleep(0.1)
            standing = [row for row in self.rows() if row]
            if turn > 2 and standing and standing[-1] == "$":
                return

    def close(self):
        self.tmux.run("kill-session", "-t", "shown")


@contextlib.contextmanager
def tmux_server():
    with tempfile.TemporaryDirectory() as folder:
        tmux = Tmux(folder)
        try:
            yield tmux
        finally:
            tmux.run("kill-server")


def shown_in_tmux(tmux, picture, folder):
    """What a pane shows of a picture's command, at its moments."""
    told = " ".join(f"{name}={value}" for name, value in picture.size().items())
    pane = Pane(tmux, picture.columns, picture.rows, folder, told)
    pane.type(picture.command)
    since, first, out = time.monotonic(), (len(picture.command) + 1) // picture.columns + 1, []
    for moment in picture.moments:
        pane.wait(since, moment)
        if len(picture.moments) > 1:
            out.append("-- at the end" if moment == "end" else f"-- after {moment} seconds")
        out += trimmed("\n".join(pane.rows("-S", "-"))).split("\n")[first:]
    pane.close()
    return "\n".join(out)


def alike(text):
    """A picture without digits, and without how far bars are."""
    return re.sub(r"\[[=># █░]*\]", "[bar]", re.sub(r"[0-9]", "0", text))


def gallery(*words):
    faults = []
    with room("bars", "examples", "meter") as folder, tmux_server() as tmux:
        for page in [pathlib.Path(word) for word in words if word != "--write"] or PAGES:
            text = page.read_text(encoding="utf-8")
            for picture, block in zip(pictures_of(page), BLOCK.finditer(text)):
                if picture.command == "readme" or re.search(r"\bpv\b", picture.command) and not shutil.which("pv"):
                    print(f"{picture.place}: passed over: {picture.command}")
                    continue
                now = shown_in_tmux(tmux, picture, folder)
                if now != picture.shown and (picture.is_exact or alike(now) != alike(picture.shown)):
                    faults.append(f"{picture.place}: {picture.command}\n-- the page\n{picture.shown}\n-- tmux\n{now}")
                    text = text.replace(block[0], f"{picture.head}\n$ {picture.command}\n{now}\n```")
            if "--write" in words:
                page.write_text(text, encoding="utf-8")
    return faults


# What programs answer

USAGE = "usage: bars demo | bars run ROWS COLS [bottom]"
TO = " > handed 2> said; echo $? > status"
SIZE = "meter: a size is a number as 700, 10M, 10MB or 1GiB"
# How long a command takes: `slow` is said if it is as long as its rate says.
TOOK = r'took=$((($(date +%s%N) - from) / 1000000)); [ $took -ge 1700 ] && [ $took -lt 4000 ] && echo slow > said || echo "$took ms" > said'
# The program, what is shown, the status, what is said, and the command: `$P` is the program, and `TO` is added where it writes no file `status`
# itself. A file `wanted` that it makes is what is to be handed on. Those of `meter` are also run with `pv`.
COMMANDS = [
    ("examples", "an unknown name", 1, "Error: no example is called nosuch", "$P nosuch"),
    ("bars", "no words", 2, USAGE, "$P"),
    ("bars", "a number is missing", 2, USAGE, "$P run 2"),
    ("bars", "a number is too great", 2, USAGE, "$P run 2 65536"),
    ("bars", "a word too many", 2, USAGE, "$P demo demo"),
    ("bars", "a word that is not UTF-8", 2, USAGE, "$P $'\\xff'"),
    ("bars", "a second one", 2, USAGE, "$P demo $'\\xff'"),
    ("bars", "an empty input", 0, "", "$P run 2 10 < /dev/null"),
    ("bars", "a size of 0", 1, "bars: E15", "$P run 0 10 < /dev/null"),
    ("bars", "no such bar", 1, "bars: line 1: E9", "$P run 2 10 <<< 'tick 1'"),
    ("bars", "an empty command", 2, "bars: line 2: bad command", "$P run 2 10 bottom <<< $'add x\\n'"),
    ("bars", "an input that fails", 2, "bars: input failed", "$P run 2 10 < ."),
    ("bars", "a reader that goes away", 2, "bars: output failed", "{ $P run 2 30 < <(seq -f 'log %019.0f' 10000) 2> said; echo $? > status; } | head -c 1"),
    ("bars", "a full disk", 2, "bars: output failed", "$P demo > /dev/full 2> said; echo $? > status"),
    ("bars", "a full disk behind a run", 2, "bars: output failed", "$P run 2 10 <<< $'add x\\ntick 1' > /dev/full 2> said; echo $? > status"),
    ("rows", "no words", 1, "", "$P"),
    ("rows", "an empty file", 1, "empty: 0 passed, 0 failed", "$P empty"),
    ("rows", "a heading alone", 1, "heading: 0 passed, 0 failed", "$P heading"),
    ("rows", "a wrong row", 1, "other: 0 passed, 1 failed", "$P other"),
    ("rows", "a missing file", 2, "rows: missing: No such file or directory (os error 2)", "$P missing"),
    ("meter", "standard input", 0, "", "cp bytes wanted; $P < bytes"),
    ("meter", "files in turn", 0, "", "cp both wanted; $P bytes lines"),
    ("meter", "a file and standard input", 0, "", "cp both wanted; $P bytes - < lines"),
    ("meter", "an empty input", 0, "", "$P < /dev/null"),
    ("meter", "a consumer that goes away", 141, "", "{ $P < /dev/zero 2> said; echo $? > status; } | head -c 1"),
    ("meter", "a full disk", 3, "meter: standard output: No space left on device (os error 28)", "$P lines > /dev/full 2> said; echo $? > status"),
    ("meter", "a directory", 1, "meter: .: Is a directory (os error 21)", "$P ."),
    ("meter", "a directory as standard input", 1, "meter: standard input: Is a directory (os error 21)", "$P < ."),
    ("meter", "no such file, and the next", 1, "meter: none: No such file or directory (os error 2)", "cp lines wanted; $P none lines"),
    ("meter", "EIO", 1, "meter: /proc/self/mem: Input/output error (os error 5)", "$P /proc/self/mem"),
    ("meter", "EBADF", 1, "meter: standard input: Bad file descriptor (os error 9)", "$P <&-"),
    ("meter", "a closed output", 3, "meter: standard output: Bad file descriptor (os error 9)", "$P lines >&- 2> said; echo $? > status"),
    ("meter", "EAGAIN from the input", 0, "",
     'cp lines wanted; { sleep 0.3; cat lines; } | perl -e "use Fcntl; fcntl(STDIN, F_SETFL, O_NONBLOCK); exec @ARGV" $P'),
    ("meter", "EAGAIN from the output", 0, "", 'cp bytes wanted; '
     '{ perl -e "use Fcntl; fcntl(STDOUT, F_SETFL, O_NONBLOCK); exec @ARGV" $P bytes 2> said; echo $? > status; } | { sleep 0.3; cat > handed; }'),
    ("meter", "stopped and continued", 0, "", "cp bytes wanted; { head -c 500000 bytes; sleep 0.6; tail -c 500000 bytes; } | "
     "{ $P > handed 2> said & id=$!; sleep 0.2; kill -STOP $id; sleep 0.2; kill -CONT $id; wait $id; echo $? > status; }"),
    ("meter", "an interrupted read and write", 0, "", "cp bytes wanted; command -v strace > /dev/null || strace() { shift 5; \"$@\"; }; "
     "strace -f -o /dev/null -e inject=read,write:error=EINTR:when=40+3 $P < bytes"),
    ("meter", "early end against --size", 0, "14", "$P -n -i 100 -s 100 < lines"),
    ("meter", "more than was said", 0, "100", "$P -n -i 100 -s 10 < lines"),
    ("meter", "--size 0 and nothing", 0, "100", "$P -n -i 100 -s 0 < /dev/null"),
    ("meter", "--size 0 and something", 0, "100", "cp lines wanted; $P -n -i 100 -s 0 < lines"),
    ("meter", "--size of a file", 0, "100", "$P -n -i 100 lines"),
    ("meter", "--numeric without a size", 0, "14", "cat lines | $P -n -i 100"),
    ("meter", "--lines", 0, "3", "cp lines wanted; $P -n -i 100 -l lines"),
    ("meter", "--line-mode, pv's name", 0, "3", "cp lines wanted; $P -n -i 100 --line-mode lines"),
    ("meter", "--width, pv's name", 0, "3", "cp lines wanted; $P -n -i 100 --width 80 -l lines"),
    ("meter", "--lines --size", 0, "60", "$P -n -i 100 -l -s 5 lines"),
    ("meter", "--quiet", 0, "", "cp lines wanted; $P -q -f lines"),
    ("meter", "--rate-limit", 0, "slow", "cp bytes wanted; from=$(date +%s%N); $P -q -L 500K bytes > handed; echo $? > status; " + TOOK),
    ("meter", "--lines --rate-limit", 0, "slow",
     "yes | head -n 200 > wanted; from=$(date +%s%N); $P -q -l -L 100 wanted > handed; echo $? > status; " + TOOK),
    ("meter", "the input is the output", 1, "meter: lines: input file is output file", "cp both wanted; cp lines kept; cp bytes grown; "
     "$P lines grown 2> said >> lines; echo $? > status; cat bytes > wanted; tail -c 1000000 lines > handed; cp kept lines"),
    ("meter", "standard input is the output", 1, "meter: standard input: input file is output file",
     "cp lines wanted; cp lines grown; $P < grown 2> said >> grown; echo $? > status; cp grown handed"),
    ("meter", "an empty file among others", 0, "100", "cp lines wanted; $P -n -i 100 empty lines"),
    ("meter", "an empty file", 0, "100", "$P -n -i 100 empty"),
    ("meter", "a file of /proc", 0, "a count", '$P -n -i 100 /proc/self/status > handed 2> counted; echo $? > status; '
     '[ "$(cat counted)" = "$(stat -c %s handed)" ] && echo a count > said'),
    ("meter", "--stop-at-size", 0, "", "head -c 700000 bytes > wanted; $P -S -s 700000 bytes lines"),
    ("meter", "--stop-at-size, standard input", 0, "", "head -c 10 lines > wanted; $P -S -s 10 < lines"),
    ("meter", "--stop-at-size --lines", 2, "meter: -S counts bytes, and -l lines: head -n ends after some", "$P -S -l -s 2 lines"),
    ("meter", "--null", 0, "2", 'printf "a\\0b\\0c" > wanted; cat wanted | $P -0 -n -i 100'),
    ("meter", "--buffer-size", 0, "", "cp bytes wanted; $P -B 7 bytes"),
    ("meter", "--buffer-size 0", 2, "meter: a buffer of 0 bytes lets nothing go", "$P -B 0 lines"),
    ("meter", "--version", 0, "", 'printf "meter 0.18.6\\n" > wanted; $P -V'),
    ("meter", "--cursor", 2, "meter: -c (--cursor) isn't there: --row K/N gives each meter of a pipeline its row", "$P -c lines"),
    ("meter", "--watchfd", 2, "meter: -d (--watchfd) isn't there: name the file, as meter FILE > COPY", "$P -d 1 lines"),
    ("meter", "an unknown option", 2, "error: unexpected argument '--jobs' found", "$P --jobs > handed 2> all; echo $? > status; head -1 all > said"),
    ("meter", "a name that is not UTF-8", 2, "meter: an argument isn't UTF-8: write meter < FILE for a file of such a name", "$P $'\\377'"),
    ("meter", "only the count and the time", 0, "14 B 00:00:00", 'COLUMNS=80 TERM=xterm $P -bt -f -i 100 lines > handed 2> shown; echo $? > status; '
     'sed "s/\\x1b\\[?*[0-9]*[A-Za-z]//g" shown | tr "\\r" "\\n" | grep . | tail -1 | sed "s/ *$//" > said'),
    ("meter", "the time of the end in a zone", 0, "as in Tokyo", 'COLUMNS=80 TERM=xterm TZ=Asia/Tokyo $P -e -f -i 100 lines > handed 2> shown; '
     'echo $? > status; now=$(TZ=Asia/Tokyo date +%H:); grep -q "$now" shown && echo as in Tokyo > said || echo "not at $now" > said'),
    ("meter", "--rate-limit 0", 2, "meter: a rate of 0 lets nothing go", "$P -L 0 lines"),
    ("meter", "--interval 0", 2, "meter: an interval is a number of seconds as 2 or 0.5", "$P -i 0 lines"),
    ("meter", "--row 3/2", 2, "meter: a row is one of several, as 2/3", "$P --row 3/2 lines"),
    ("meter", "--format", 2, "meter: unexpected character 'x' in state DoubleClose of a template", '$P -f -F "}x" lines'),
    ("meter", "an escape sequence in --name", 0, "0", 'TERM=xterm $P -f -N "$(printf "a\\033[2Jb")" lines > handed 2> shown; echo $? > status; '
     'LC_ALL=C grep -c "$(printf "\\033\\\\[2J")" shown > said'),
    ("meter", "the last draw shows the last byte", 0, "1", 'TERM=xterm $P -f -i 100 lines > handed 2> shown; echo $? > status; '
     'tr "\\r" "\\n" < shown | tail -2 | grep -c "14 B.*100%" > said'),
    *(("meter", f"--size {size}", 0, said, f"$P -n -i 100 -s {size} < half")
      for size, said in {"10M": "50", "10MiB": "50", "10MB": "52", "5k": "100", "15E": "0", "5242880": "100"}.items()),
    *(("meter", f"--size '{size}'", 2, SIZE, f"$P -s '{size}' lines") for size in ("16E", "18446744073709551616", "", "M", "10X", "10 M", "10Mi")),
]


def answered(folder, program, command):
    """A command's status and what it said, and whether it handed on what was wanted."""
    for name in ("status", "said", "handed", "wanted"):
        (folder / name).unlink(missing_ok=True)
    if "> status" not in command:
        command += TO
    environment = {**os.environ, "P": str(program), "LC_ALL": "C"}
    subprocess.run(["bash", "-c", command], cwd=folder, env=environment, timeout=PATIENCE, stdin=subprocess.DEVNULL, stderr=subprocess.DEVNULL)
    status, said, handed, wanted = ((folder / name).read_bytes() if (folder / name).exists() else None for name in ("status", "said", "handed", "wanted"))
    text = (status or b"none").decode().strip() + " " + (said or b"").decode(errors="replace").rstrip("\n")
    return text, wanted is None or wanted == handed


def statuses():
    faults = []
    with room() as folder:
        for name, what, status, says, command in COMMANDS:
            got, is_handed = answered(folder, built(name), command)
            is_good = got == f"{status} {says}" and is_handed
            if not is_good:
                faults.append(f"{name}, {what}: wanted {status} {says}, got {got}{'' if is_handed else ', and handed on something else'}")
            beside = answered(folder, "pv", command)[0].replace("\n", " ")[:60] if name == "meter" and shutil.which("pv") else ""
            print(f"{name:8} {what:34} {'as wanted' if is_good else 'OTHERWISE':10} {beside}")
    if shutil.which("pv"):
        options = re.findall(r"^ *-(.),", subprocess.run(["pv", "--help"], capture_output=True, text=True).stdout, re.M)
        page = PAGES[1].read_text(encoding="utf-8")
        faults += [f"crates/meter/README.md has nothing of pv -{it}" for it in options if not re.search(rf"[` ]-{re.escape(it)}\b", page)]
    return faults


def others():
    """Whether what another program writes while `meter` goes on has a row of its own, and so has the prompt."""
    faults = []
    with room("meter") as folder, tmux_server() as tmux:
        for columns in (80, 40, 20):
            pane = Pane(tmux, columns, 12, folder, "")
            wanted = lambda what, row: row in pane.rows() or faults.append(f"{columns} columns: {what} isn't on a row of its own")
            pane.type("clear; { (sleep 1.3; echo warning: slow >&2) & slow; } | meter -s 10M | { cat > /dev/null; echo 524288000; }")
            time.sleep(2)
            wanted("a line", "warning: slow")
            time.sleep(6)
            wanted("a number of the consumer", "524288000")
            wanted("the prompt", "$")
            pane.type("clear; slow | meter --row 1/2 -N in | meter --row 2/2 -N out > /dev/null")
            time.sleep(1.5)
            tmux.run("send-keys", "-t", "shown", "C-c")
            time.sleep(0.5)
            wanted("the prompt after ^C", "$")
            pane.close()
    return faults


# Storms, writes, turned rows, races

# a line that stands alone in its row; the log's have their level before them
LINE = re.compile(r"^(?:INFO {1,2})?(line \d+ \d+ \d+)$")


def in_pane(tmux, columns, rows, command):
    """Runs a command in a pane of this size; all rows that stand after it."""
    tmux.run("set", "-g", "history-limit", "100000")
    tmux.run("new-session", "-d", "-s", "shown", "-x", str(columns), "-y", str(rows), f"{command}; {' '.join(tmux.command)} wait-for -S done; exec sleep {PATIENCE}")
    tmux.run("wait-for", "done")
    rows = [row.rstrip() for row in tmux.run("capture-pane", "-p", "-t", "shown", "-S", "-", "-E", "-").stdout.splitlines()]
    tmux.run("kill-session", "-t", "shown")
    return rows


def storms(count="2"):
    faults, path = [], shlex.quote(str(built("examples")))
    for columns, rows in [(80, 24), (40, 10), (30, 3)] * int(count):
        with tmux_server() as tmux:
            # (a session that stays, so that its options hold for the next)
            tmux.run("new-session", "-d", "-s", "kept", "sleep 1000")
            shown = in_pane(tmux, columns, rows, f"COLUMNS={columns} LINES={rows} {path} storm > {tmux.folder}/said; echo status $? >> {tmux.folder}/said")
            said = pathlib.Path(tmux.folder, "said").read_text(encoding="utf-8").splitlines()
        written = written_in(said)
        found = collections.Counter(match[1] for match in map(LINE.match, shown) if match)
        bad = {"lost": written - set(found), "overwritten": {row for row in shown if "line " in row and not LINE.match(row)},
               "twice": {line for line, times in found.items() if times > 1 or line not in written}}
        ended = [row for row in said if row.startswith(("status", "missed"))]
        print(f"{columns}x{rows}: {len(written)} lines, " + ", ".join(f"{len(rows)} {what}" for what, rows in bad.items()) + "; " + ", ".join(ended))
        faults += [f"{columns}x{rows}, {what}: {row!r}" for what, rows in bad.items() for row in sorted(rows)[:5]]
        if not written or ended != ["missed 0", "status 0"]:
            faults.append(f"{columns}x{rows}: {len(written)} lines, {ended}")
    return faults


def writes():
    with tmux_server() as tmux:
        traced = f"COLUMNS=80 LINES=24 strace -f -e trace=write,writev,pwrite64,sendto -o {tmux.folder}/calls {built('examples')} still"
        in_pane(tmux, 80, 24, traced)
        traced = pathlib.Path(tmux.folder, "calls").read_text(encoding="utf-8", errors="replace")
    sizes = re.findall(r"writev?\(2, .* = (\d+)$", traced, re.M)
    drawings = traced.count('write(2, "\\33[?2026h')
    print(f"bytes of the writes: {' '.join(sizes)}\ndrawings: {drawings}; writes: {len(sizes)}")
    return [] if drawings == 30 else ["wanted are 30 drawings"]


def turned():
    """Turns the last value of each file of rows, and plays the copies: each file has to count one failure, and to print that row."""
    wanted = {}
    with tempfile.TemporaryDirectory() as folder:
        for file in sorted(DATA.glob("**/*.txt")):
            name, lines = file.relative_to(DATA).as_posix(), file.read_text(encoding="utf-8").splitlines()
            at = max(i for i, line in enumerate(lines) if " -> " in line and "\\u" not in line and not line.startswith(("#", "given ")))
            steps, value = lines[at].split(" -> ", 1)
            lines[at] += "~"
            wanted[name] = f"{name}, line {at + 1}: {steps}\n  wanted {value}~\n  got " + value.replace("\t", "\\t").replace("\\s", " ") + "\n"
            path = pathlib.Path(folder, name)
            path.parent.mkdir(exist_ok=True)
            path.write_text("\n".join(lines) + "\n", encoding="utf-8")
        said = subprocess.run([built("rows"), *wanted], cwd=folder, stdout=subprocess.PIPE, stderr=subprocess.STDOUT).stdout.decode(errors="replace")
    print(f"{len(wanted)} files")
    return [f"{name}: a turned value isn't reported" for name, row in wanted.items()
            if row not in said or not re.search(rf"^{re.escape(name)}: \d+ passed, 1 failed$", said, re.M)]


def race(turns="7"):
    """Prints the milliseconds that 2 GiB take, in all and of a processor: the median and the least."""
    programs = {"meter": "meter --size 2GiB", "pv": "pv --size 2G", "cat": "cat"}
    took = collections.defaultdict(list)
    with room("meter") as folder, tmux_server() as tmux:
        os.environ["PATH"] = f"{folder}:{os.environ['PATH']}"
        for _, where, name in ((turn, where, name) for turn in range(int(turns)) for where in ("hidden", "shown") for name in programs):
            errors = "/dev/tty" if where == "shown" else folder / "errors"
            script = f"TIMEFORMAT='%R %U %S'; time (head -c 2G /dev/zero | (TIMEFORMAT='%U %S'; time {programs[name]} 2> {errors}) 2> {folder}/own | cat > /dev/null)"
            (folder / "script").write_text(f"{{ {script}; }} 2> {folder}/all\n")
            if where == "shown":
                in_pane(tmux, 80, 8, f"bash {folder}/script")
            else:
                subprocess.run(["bash", folder / "script"], stdin=subprocess.DEVNULL, check=True)
            own = sum(map(float, (folder / "own").read_text().split()))
            took[where, name].append((float((folder / "all").read_text().split()[0]) * 1000, own * 1000))
    for (where, name), runs in sorted(took.items()):
        elapsed, own = zip(*runs)
        print(f"{where:8} {name:8} median {statistics.median(elapsed):6.0f}, least {min(elapsed):6.0f}, processor {statistics.median(own):6.0f}")
    return []


WHAT = {"gate": gate, "gallery": gallery, "statuses": statuses, "others": others, "storms": storms, "writes": writes, "turned": turned, "race": race}


def main():
    if sys.argv[1:2] == [] or sys.argv[1] not in WHAT:
        sys.exit(__doc__)
    faults = WHAT[sys.argv[1]](*sys.argv[2:])
    print("\n".join([*faults, f"{len(faults)} are otherwise"]))
    sys.exit(1 if faults else 0)


if __name__ == "__main__":
    main()
