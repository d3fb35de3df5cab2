#!/usr/bin/env python3
"""Compares a real terminal, tmux, with the rows that crate `rows` plays on the cell terminal.

usage: tools/real_terminal.py [FILE ..]
       tools/real_terminal.py lists SEED COUNT
       tools/real_terminal.py sizes SEED COUNT
       tools/real_terminal.py model SEED COUNT > FILE   (then the program `rows` with that file's name)
       tools/real_terminal.py widths
  FILE   files of crates/rows/data, by their names; those of FILES below if none is named
  lists  a number of random lists of calls: what the engine writes, what one writes whose cursor only moves, and what one writes that
         writes whole frames (`fuzz whole_frames`) is played to three panes. All rows, with those that scrolled away and with
         colours, and the cursor have to be the same
  model  a model of `bars run`, written from the rules alone: lists of rows, no bytes and no cursor. It makes random scripts with sizes between
         the commands, and prints them as rows that crates/rows plays, with the pictures that it has at the end. A line that it refuses is
         left out
  sizes  a number of random scripts of the model, with sizes at which tmux has no rows to join: what a board writes is played to a
         pane that gets these sizes between the calls. All rows have to be the model's
  widths what the boards of any_width.txt write is played to panes of each of their widths. Rows above have to stand, and each row of a
         board has to be clipped before the pane's last column

A row that tells what stands on the screen at last (`shows`, or `contents` of `cells`) is a case: the bytes that led there are
written to a pane of its size, and what the pane shows is compared with what the row says, up to the last written row, without
the blanks at the ends of rows. The bytes of bars and boards are asked of the program `rows` (`written`), which it builds first.
Rows are passed over whose terminal fails, is written to by others, or changes on the way, and those with a sequence that isn't a
colour's: what it does to a terminal isn't claimed. A program that stands in the folder $PROGRAMS is taken from there.

The exit status is 1 if a case differs. It wants Debian's package tmux.
"""
import copy
import os
import random
import re
import subprocess
import sys
import tempfile
import unicodedata

TOP = os.path.dirname(os.path.dirname(os.path.abspath(__file__)))
CRATE = os.path.join(TOP, "crates", "rows")
FILES = ["real_terminals.txt", "lone.txt", "finishes.txt", "boards.txt", "render_lone.txt"]
LEFT_OUT = re.compile(r"^(feed|takes|halts|fails_call|fail_after|target|suspend|hidden|lone hidden|board hidden|size)\b")
OTHER_SEQUENCE = re.compile(r"\\e\[[0-9;]*[A-Za-ln-z]")
ESCAPES = {"n": "\n", "t": "\t", "r": "\r", "0": "\0", "e": "\x1b", "s": " ", "\\": "\\"}


def unescaped(text):
    """The bytes that a row's escapes stand for."""
    out = bytearray()
    at = 0
    while at < len(text):
        if text[at] != "\\":
            out += text[at].encode()
            at += 1
        elif text[at + 1] == "u":
            end = text.index("}", at)
            out += chr(int(text[at + 3 : end], 16)).encode()
            at = end + 1
        elif text[at + 1] == "x":
            out.append(int(text[at + 2 : at + 4], 16))
            at += 4
        else:
            out += ESCAPES[text[at + 1]].encode()
            at += 2
    return bytes(out)


def trimmed(rows):
    """Rows without the blanks at their ends, and without the empty ones at the end."""
    return "\n".join(row.rstrip(" ") for row in rows.split("\n")).rstrip("\n")


class Case:
    """A row: where it stands, its terminal's size, what is to be shown, and its bytes or the steps that write them."""

    def __init__(self, place, size, wanted, bytes_=None, steps=None):
        self.place, self.size, self.wanted, self.bytes, self.steps = place, size, trimmed(wanted), bytes_, steps


def cases_of(name):
    """The cases of a file."""
    given, script, wanted_of_given = [], [], []
    for number, line in enumerate(open(os.path.join(CRATE, "data", name), encoding="utf-8"), 1):
        line = line.rstrip("\n")
        if not line or line.startswith("#"):
            continue
        steps, _, wanted = line.partition(" -> ")
        steps = steps.removesuffix(" ->")
        place = f"{name}, line {number}"
        if steps.startswith("fed "):
            _, rows, columns, text = steps.split(" ", 3)
            contents = unescaped(wanted).decode().split("\t")[1]
            yield Case(place, (rows, columns), contents, bytes_=unescaped(text))
            continue
        if steps.startswith("given "):
            given = steps.removeprefix("given ").split("; ")
            script = list(given)
            continue
        steps = steps.removeprefix("+ ") if steps.startswith("+ ") else steps
        here = steps.split("; ")
        if line.startswith("+ "):
            script = given + here
        elif re.match(r"(lone|board|cells|term|memory|engine|record|table|style) ", here[0]):
            script = here
        else:
            script = script + here
        case = case_of(place, script, wanted)
        if case:
            yield case


def case_of(place, script, wanted):
    """The case of a script whose last step tells what is shown; None of another."""
    begun = script[0].split(" ")
    contents = unescaped(wanted.split("; ")[-1]).decode()
    if begun[0] == "cells" and script[-1] == "contents" and all(s.startswith("feed ") or s == "contents" for s in script[1:]):
        fed = b"".join(unescaped(step.removeprefix("feed ")) for step in script[1:] if step != "contents")
        return Case(place, begun[1:3], contents, bytes_=fed)
    if begun[0] not in ("lone", "board", "term") or script[-1] != "shows" or any(LEFT_OUT.match(step) for step in script):
        return None
    if int(begun[1]) == 0 or int(begun[2]) == 0 or re.match(r"E\d+$", contents):
        return None
    if any(OTHER_SEQUENCE.search(step) for step in script):
        return None
    return Case(place, begun[1:3], contents, steps="; ".join(script))


def built(name):
    """The program of this name."""
    there = os.path.join(os.environ.get("PROGRAMS", ""), name)
    if "PROGRAMS" in os.environ and os.path.isfile(there):
        return os.path.abspath(there)
    crate = os.path.join(TOP, "crates", name)
    ran = subprocess.run(["rt", "run"], cwd=crate, capture_output=True, text=True)
    program = os.path.join(crate, "out", name)
    if not os.path.exists(program):
        sys.exit(f"no program {name}:\n" + ran.stdout[-500:] + ran.stderr[-500:])
    return program


def with_bytes(cases):
    """The cases, with the bytes that the program `rows` tells of those that are steps."""
    program = built("rows")
    asked = [case for case in cases if case.steps]
    with tempfile.TemporaryDirectory() as folder:
        with open(os.path.join(folder, "asked"), "w", encoding="utf-8") as file:
            for case in asked:
                file.write(case.steps + " -> ?\nwritten -> ?\n")
        told = subprocess.run([program, "asked"], cwd=folder, capture_output=True, text=True).stdout
    written = dict(re.findall(r"^asked, line (\d+): written\n  wanted \?\n  got (.*)$", told, re.M))
    for index, case in enumerate(asked):
        case.bytes = unescaped(written[str(2 * index + 2)])
    return cases


class Tmux:
    """A server of its own."""

    def __init__(self, folder):
        conf = os.path.join(folder, "conf")
        with open(conf, "w") as file:
            file.write("set -g status off\nset -g exit-empty off\nset -g default-terminal screen-256color\n")
        self.folder = folder
        self.command = ["tmux", "-u", "-f", conf, "-S", os.path.join(folder, "tmux")]

    def run(self, *words):
        return subprocess.run(self.command + list(words), capture_output=True, text=True, env={**os.environ, "LC_ALL": "C.UTF-8"})

    def opened(self, size, bytes_, name):
        """The words that open a pane of this size and name, and wait until it has read these bytes, as its answer to ESC [6n shows."""
        path = os.path.join(self.folder, name)
        with open(path, "wb") as file:
            file.write(bytes_)
        with open(path + ".sh", "w", encoding="utf-8") as file:
            file.write(f"stty raw -echo\ncat '{path}'\nprintf '\\033[6n'\nIFS= read -rd R answer\n")
            file.write(f"{' '.join(self.command)} wait-for -S {name}\nexec sleep 1000\n")
        rows, columns = size
        return ["new-session", "-d", "-s", name, "-x", columns, "-y", rows, f"bash '{path}.sh'", ";", "wait-for", name, ";"]

    def shown(self, case):
        """What a pane of the case's size shows after its bytes."""
        words = self.opened(case.size, case.bytes, "case")
        return trimmed(self.run(*words, "capture-pane", "-p", "-t", "case", ";", "kill-session", "-t", "case").stdout)

    def shown_whole(self, size, bytes_):
        """All rows of a pane of this size after these bytes."""
        words = self.opened(size, bytes_, "whole")
        return self.run(*words, "capture-pane", "-p", "-S", "-", "-t", "whole", ";", "kill-session", "-t", "whole").stdout

    def shown_through(self, parts):
        """All rows of a pane that gets these sizes, and behind each the bytes beside it."""
        path = os.path.join(self.folder, "sized")
        with open(path + ".sh", "w", encoding="utf-8") as file:
            file.write("trap '' WINCH\nstty raw -echo\n")
            for at, (_, bytes_) in enumerate(parts):
                with open(f"{path}{at}", "wb") as part:
                    part.write(bytes_)
                os.path.exists(f"{path}{at}.go") or os.mkfifo(f"{path}{at}.go")
                file.write("" if at == 0 else f"read -r go < '{path}{at}.go'\n")
                file.write(f"cat '{path}{at}'\nprintf '\\033[6n'\nIFS= read -rd R answer\n")
                file.write(f"{' '.join(self.command)} wait-for -S sized{at}\n")
            file.write("exec sleep 1000\n")
        (rows, columns), _ = parts[0]
        self.run("new-session", "-d", "-s", "sized", "-x", columns, "-y", rows, f"bash '{path}.sh'", ";", "wait-for", "sized0")
        for at, ((rows, columns), _) in list(enumerate(parts))[1:]:
            self.run("resize-window", "-t", "sized", "-x", columns, "-y", rows)
            with open(f"{path}{at}.go", "w", encoding="utf-8") as go:
                go.write("\n")
            self.run("wait-for", f"sized{at}")
        return trimmed(self.run("capture-pane", "-p", "-S", "-", "-t", "sized", ";", "kill-session", "-t", "sized").stdout)

    def all_shown(self, size, several):
        """What panes of this size show, each after its bytes: all rows, and the cursor."""
        words = []
        for index, bytes_ in enumerate(several):
            name = f"case{index}"
            words += self.opened(size, bytes_, name)
            words += ["capture-pane", "-p", "-e", "-S", "-", "-t", name, ";"]
            words += ["display-message", "-p", "-t", name, "cursor at row #{cursor_y}, column #{cursor_x}", ";"]
            words += ["kill-session", "-t", name, ";"]
        return [coloured(rows) + at for rows, at in re.findall(r"(.*?)^(cursor at [^\n]*)\n", self.run(*words).stdout, re.M | re.S)]


def after(colours, numbers):
    """The colours behind a sequence of these numbers: whether letters are bold, and the colour's number."""
    is_bold, colour = colours
    for number in numbers.split(";"):
        if number in ("", "0"):
            is_bold, colour = False, ""
        elif number == "1":
            is_bold = True
        elif re.fullmatch("3[0-79]", number):
            colour = number.replace("39", "")
    return is_bold, colour


def coloured(text):
    """Rows with the colours of each character between braces, where they aren't those of the one before. A blank has none."""
    out, now, said = "", (False, ""), (False, "")
    for numbers, char in re.findall(r"\x1b\[([\d;]*)m|(.)", text, re.S):
        if not char:
            now = after(now, numbers)
        elif char in " \n" or now == said:
            out += char
        else:
            said = now
            out += "{" + "bold " * now[0] + now[1] + "}" + char
    return "\n".join(row.rstrip(" ") for row in out.split("\n"))


def lists(seed, count):
    """Whether the panes of each list are the same."""
    told = subprocess.run([built("fuzz"), "whole_frames", seed, count, "bytes"], capture_output=True, text=True, check=True).stdout.split("\n")
    differ = 0
    with tempfile.TemporaryDirectory() as folder:
        tmux = Tmux(folder)
        try:
            for at in range(int(count)):
                size, *several = told[4 * at : 4 * at + 4]
                got = tmux.all_shown(size.split(" "), [unescaped(text[1:-1]) for text in several])
                if len(got) != 3 or len(set(got)) > 1:
                    differ += 1
                    print(f"list {at} of seed {seed}, rows and columns {size}", *got, sep="\n--\n")
        finally:
            tmux.run("kill-server")
    print(f"{int(count) - differ} lists agree, {differ} differ")
    return differ


# what a line of `bars run` is among the steps of a board
STEPS = {"msg": "set_message", "hide": "finish_and_clear"}


def step_of(line):
    """The step of a board that a line of `bars run` is."""
    word, _, rest = line.partition(" ")
    if word in ("add", "log", "warn"):
        text = ("WARN  " if word == "warn" else "") + rest
        return ("add '" if word == "add" else "log ") + text.replace("\x1b", "\\e").replace(" ", "\\s")
    if word in ("clear", "size"):
        return line
    number, _, text = rest.partition(" ")
    spelled = text.replace("\x1b", "\\e").replace(" ", "\\s")
    return f"{int(number) - 1}: {STEPS.get(word, word)}" + (f" {spelled}" if word == "msg" else "")


def parts_of(first, lines, told):
    """What a board writes before its first size, and behind each, with the sizes."""
    steps = [step_of(line) for line in lines]
    telling = [step for step in looked(steps) if not step.startswith("size ")]
    counts = [int(word) for step, word in zip(telling, told) if step == "bytes"]
    written = unescaped(told[-1]) if len(told) == len(telling) else b""
    ends = counts + [len(written)]
    sizes = [(str(first.height), str(first.columns))] + [tuple(step.split(" ")[1:]) for step in steps if step.startswith("size ")]
    return [(size, written[start:end]) for size, start, end in zip(sizes, [0] + counts, ends)]


def looked(steps):
    """The steps, with a look at how many bytes were written before each size, and at all bytes behind them."""
    return [step for line in steps for step in (["bytes", line] if line.startswith("size ") else [line])] + ["written"]


def sized_scripts(seed, count):
    """A number of random scripts with a size: how each begins, its parts, and the picture at its end."""
    program, chance, scripts = built("rows"), random.Random(int(seed)), []
    while len(scripts) < int(count):
        first, lines, board = script(chance, is_even=True)
        if any(line.startswith("size ") for line in lines):
            scripts.append((first, lines, board))
    with tempfile.TemporaryDirectory() as folder:
        with open(os.path.join(folder, "asked"), "w", encoding="utf-8") as file:
            for first, lines, _ in scripts:
                head = f"board {first.height} {first.columns} 0{' bottom' if first.bottom else ''}"
                file.write("; ".join([head, *looked([step_of(line) for line in lines])]) + " -> ?\n")
        told = subprocess.run([program, "asked"], cwd=folder, capture_output=True, text=True).stdout
    got = dict(re.findall(r"^asked, line (\d+): .*\n  wanted \?\n  got (.*)$", told, re.M))
    for at, (first, lines, board) in enumerate(scripts, 1):
        yield first, lines, parts_of(first, lines, got[str(at)].split("; ")), "\n".join(board.picture())


def sizes(seed, count):
    """Whether panes that get other sizes have the model's rows at the end."""
    differ = total = 0
    with tempfile.TemporaryDirectory() as folder:
        tmux = Tmux(folder)
        try:
            for first, lines, parts, wanted in sized_scripts(seed, count):
                total += 1
                got = tmux.shown_through(parts)
                if got != trimmed(wanted):
                    differ += 1
                    print(f"{first.height} rows, {first.columns} columns: {lines}\n-- the model\n{wanted}\n-- tmux\n{got}")
        finally:
            tmux.run("kill-server")
    print(f"{total - differ} scripts agree, {differ} differ")
    return differ


# The model. A script that is even has sizes only where terminals that join rows agree with those that don't: other columns come only where no line
# has taken two rows so far, and fewer of them only where nothing was written.

COLOUR = re.compile("\x1b\\[[0-9;]*m")
TEXTS = [
    *("a", "x", "ab", "abcd", "abcdefgh", "hello world", "", "国", "国本x", "a国", "e\u0308fg"),
    *("\x1b[32mok\x1b[0m", "a b", " x", "ab  ", "  ", "abcdefghijklmnopqrstuvwxyz"),
]


class Refused(Exception):
    pass


def width(char):
    if unicodedata.combining(char):
        return 0
    return 2 if unicodedata.east_asian_width(char) in "WF" else 1


def glyphs(text):
    """Each visible character with those of no columns behind it, and its columns."""
    found = []
    for char in COLOUR.sub("", text):
        if width(char):
            found.append((char, width(char)))
        elif found:
            found[-1] = (found[-1][0] + char, found[-1][1])
    return found


def cut(columns, found):
    """Glyphs in rows of at most this number of columns; one row where there is none."""
    rows, taken = [[]], 0
    for glyph in found:
        if taken + glyph[1] > columns:
            rows.append([])
            taken = 0
        rows[-1].append(glyph)
        taken += glyph[1]
    return rows


def without_blanks(row):
    while row and row[-1][0] == " ":
        row = row[:-1]
    return row


def recut(columns, rows):
    """What rows become at another width: each by itself, without the blanks at its end and glyphs that are too wide."""
    return [new for row in rows for new in cut(columns, [it for it in without_blanks(row) if it[1] <= columns])]


class Bar:
    def __init__(self, number, text):
        self.number, self.text, self.lines = number, text, []
        self.finished = self.hidden = self.dropped = False

    def lay_out(self):
        self.lines = [] if self.hidden or not self.text else [self.text]


class Board:
    def __init__(self, rows, columns, bottom, is_even=False):
        self.height, self.columns, self.bottom = rows, columns, bottom
        self.is_even, self.is_written, self.is_wrapped = is_even, False, False
        self.above, self.kept, self.blanks, self.segments = [], [], 0, []
        self.reach, self.below = 1, True
        self.order, self.made = [], {}

    def live(self):
        return [[] for _ in range(self.blanks)] + [row for _, rows in self.segments for row in rows]

    def total(self):
        return len(self.above) + len(self.kept) + len(self.live())

    def settle(self):
        self.reach = max(self.reach, self.total())
        gone = max(0, self.reach - self.height - len(self.above))
        self.above, self.kept = self.above + self.kept[:gone], self.kept[gone:]

    def rest(self):
        self.settle()
        self.below = not self.live() and self.reach > self.total()

    def leaders(self):
        dropped = [it.dropped for it in self.order]
        return dropped.index(False) if False in dropped else len(dropped)

    def show(self, taken, text):
        """The lines that fit, from the front, in the place of a number of rows and below a number of those of a text."""
        room, shown = self.height, []
        for bar, line in [(bar, line) for bar in self.order for line in bar.lines]:
            rows = cut(self.columns, glyphs(line))
            if len(rows) > room:
                break
            self.note(rows)
            room -= len(rows)
            if shown and shown[-1][0] == bar.number:
                shown[-1][1].extend(rows)
            else:
                shown.append((bar.number, rows))
        count = sum(len(rows) for _, rows in shown)
        self.segments = shown
        self.blanks = max(0, taken - text - count) if self.bottom and count else 0

    def measure(self, lines):
        if any(glyph[1] > self.columns for line in lines for glyph in glyphs(line)):
            raise Refused("E12")

    def draw(self):
        self.measure(line for bar in self.order for line in bar.lines)
        count = self.leaders()
        self.show(len(self.live()), 0)
        gone = [bar.number for bar in self.order[:count]]
        self.keep(sum(number in gone for number, _ in self.segments))
        self.order = self.order[count:]
        self.rest()

    def keep(self, count):
        if count:
            self.kept = self.kept + self.live()[: self.blanks] + [row for _, rows in self.segments[:count] for row in rows]
            self.blanks, self.segments = 0, self.segments[count:]

    def take_back(self):
        self.order = self.order[self.leaders() :]
        self.kept, self.blanks, self.segments = [], 0, []

    def log(self, text):
        self.measure([text, *(line for bar in self.order[self.leaders() :] for line in bar.lines)])
        taken = len(self.kept) + len(self.live())
        self.take_back()
        rows = cut(self.columns, glyphs(text))
        self.note(rows)
        self.above = self.above + rows
        self.show(taken, len(rows))
        self.rest()

    def clear(self):
        self.take_back()
        self.rest()

    def drop(self, bar):
        if not bar.finished:
            bar.finished = bar.hidden = True
            bar.lay_out()
            self.draw()
        is_first = self.order[0] is bar
        numbers = [number for number, _ in self.segments]
        if is_first and bar.number in numbers[:1]:
            self.keep(1)
        if is_first and bar.number not in [number for number, _ in self.segments]:
            self.order.pop(0)
        else:
            bar.dropped = True

    def note(self, rows):
        """These rows are written, of one line."""
        self.is_written = True
        self.is_wrapped = self.is_wrapped or len(rows) > 1

    def resize(self, rows, columns):
        if (rows, columns) == (self.height, self.columns):
            return
        if self.is_even and (columns < self.columns and self.is_written or columns != self.columns and self.is_wrapped):
            raise Refused("uneven")
        self.above, self.kept = recut(columns, self.above), recut(columns, self.kept)
        self.segments = [(number, recut(columns, it)) for number, it in self.segments]
        self.height, self.columns = rows, columns
        self.reach = self.total() + self.below
        for _ in range(max(0, self.reach - rows - len(self.above) - len(self.kept))):
            self.pass_row()
        self.settle()

    def pass_row(self):
        """The first live row becomes a kept one."""
        self.kept = self.kept + self.live()[:1]
        if self.blanks:
            self.blanks -= 1
        elif self.segments:
            number, rows = self.segments[0]
            self.segments = ([(number, rows[1:])] if rows[1:] else []) + self.segments[1:]

    def named(self, number):
        bar = self.made.get(number)
        if bar not in self.order or bar.dropped:
            raise Refused("E9")
        return bar

    def play(self, line):
        word, _, rest = line.partition(" ")
        if word == "add":
            self.made[len(self.made) + 1] = Bar(len(self.made) + 1, rest)
            self.order.append(self.made[len(self.made)])
        elif word in ("log", "warn"):
            self.log(rest if word == "log" else "WARN  " + rest)
        elif word == "clear":
            self.clear()
        elif word == "size":
            self.resize(*map(int, rest.split(" ")))
        else:
            number, _, text = rest.partition(" ")
            self.tell(word, int(number), text)

    def tell(self, word, number, text):
        bar = self.named(number)
        if word == "remove":
            self.order.remove(bar)
        elif word == "drop":
            self.drop(bar)
        else:
            if word == "msg":
                bar.text = text
            elif word != "tick":
                bar.finished, bar.hidden = True, word == "hide"
            bar.lay_out()
            self.draw()

    def picture(self):
        rows = ["".join(char for char, _ in row).rstrip(" ") for row in self.above + self.kept + self.live()]
        while rows and not rows[-1]:
            rows.pop()
        return rows


def model_command(chance, board):
    number = chance.randint(1, max(1, len(board.made)))
    word = chance.choice(["add"] * 4 + ["msg"] * 3 + ["tick", "size"] * 5 + ["drop", "log"] * 2 + ["finish", "abandon", "hide", "remove", "warn", "clear"])
    if word in ("add", "log", "warn"):
        return f"{word} {chance.choice(TEXTS)}"
    if word == "msg":
        return f"msg {number} {chance.choice(TEXTS)}"
    if word == "size":
        return f"size {chance.choice([1, 2, 3, 4, 5, 6, 9, board.height])} {chance.choice([1, 2, 3, 4, 5, 7, 10, 12, 20, board.columns])}"
    return word if word == "clear" else f"{word} {number}"


def script(chance, is_even=False):
    """A board as it begins, the lines of a script, and the board as it is then."""
    first = Board(chance.randint(1, 6), chance.choice([1, *range(2, 13), *range(2, 13)]), chance.random() < 0.4, is_even)
    board, lines = copy.deepcopy(first), []
    for _ in range(chance.randint(2, 24)):
        line, tried = model_command(chance, board), copy.deepcopy(board)
        try:
            tried.play(line)
        except Refused:
            continue
        board = tried
        lines.append(line)
    return first, lines, board


def model_row(chance):
    first, lines, board = script(chance)
    head = f"bars run {first.height} {first.columns}{' bottom' if first.bottom else ''}:"
    spelled = "".join(line + "\\n" for line in lines).replace("\x1b", "\\e")
    return f"{head} {spelled} -> 0 {''.join(it + chr(92) + 'n' for it in board.picture())}".rstrip(" ")


# steps that only look at a pane
LOOKS = re.compile(r"(above|clipped|rows|wraps)\b")


def scripts_of_widths():
    """The scripts of any_width.txt: its first and its last width, the rows and columns that are told, the rows of a pane, and the steps."""
    scripts = []
    for line in open(os.path.join(CRATE, "data", "front", "any_width.txt"), encoding="utf-8"):
        steps = line.rstrip("\n").partition(" -> ")[0].split("; ")
        begun = re.fullmatch(r"widths (\d+) (\d+) (\d+) (\d+) on (\d+)", steps[0])
        if begun or steps[0].startswith("broken "):
            scripts.append((begun and begun.groups(), steps[1:]))
        elif not line.startswith("#") and line.strip():
            scripts[-1][1].extend(steps)
    return [(sizes, steps) for sizes, steps in scripts if sizes]


def clipped(row, room):
    """The longest front of a row that has room in a number of columns. A wide character may end on the next one: tmux keeps it where only its
    second cell is emptied, as DECISIONS says."""
    out, wide = "", 0
    for char in row:
        columns = 0 if unicodedata.combining(char) else 2 if unicodedata.east_asian_width(char) in "WF" else 1
        wide += columns
        if wide > room + (columns == 2):
            break
        out += char
    return out


def widths():
    """Whether panes of each width show what the rule says, up to the last look of a script that tells its rows."""
    asked = []
    for (first, last, told_rows, told_columns, rows), steps in scripts_of_widths():
        end = max(at for at, step in enumerate(steps) if step.startswith("clipped "))
        _, _, text = steps[end].split(" ", 2)
        above = [row for step in steps if step.startswith("others ") for row in unescaped(step.removeprefix("others ")).decode().split("\r\n")[:-1]]
        played = [step for step in steps[:end] if not LOOKS.match(step)]
        head = f"told {told_rows} {told_columns} on {rows} {told_columns}"
        asked.append((range(int(first), int(last) + 1), rows, above, unescaped(text).decode().split("\n"), "; ".join([head, *played])))
    with tempfile.TemporaryDirectory() as folder:
        with open(os.path.join(folder, "asked"), "w", encoding="utf-8") as file:
            for *_, steps in asked:
                file.write(steps + " -> ?\nwritten -> ?\n")
        os.mkdir(os.path.join(folder, "front"))
        os.rename(os.path.join(folder, "asked"), os.path.join(folder, "front", "asked"))
        told = subprocess.run([built("rows"), "front/asked"], cwd=folder, capture_output=True, text=True).stdout
        written = dict(re.findall(r"^\S*asked, line (\d+): written\n  wanted \?\n  got (.*)$", told, re.M))
        tmux, differ, total = Tmux(folder), 0, 0
        try:
            for at, (columns, rows, above, live, steps) in enumerate(asked, 1):
                for wide in columns:
                    total += 1
                    got = trimmed(tmux.shown_whole((rows, str(wide)), unescaped(written[str(2 * at)])))
                    wanted = trimmed("\n".join(above + [clipped(row, wide - 1) for row in live]))
                    if got != wanted:
                        differ += 1
                        print(f"{wide} columns: {steps}\n-- the rule\n{wanted}\n-- tmux\n{got}")
        finally:
            tmux.run("kill-server")
    print(f"{total - differ} panes agree, {differ} differ")
    return differ


def main():
    if sys.argv[1:2] == ["widths"]:
        sys.exit(1 if widths() else 0)
    if sys.argv[1:2] == ["lists"]:
        sys.exit(1 if lists(*sys.argv[2:4]) else 0)
    if sys.argv[1:2] == ["model"]:
        chance = random.Random(int(sys.argv[2]))
        print("\n".join(model_row(chance) for _ in range(int(sys.argv[3]))))
        return
    if sys.argv[1:2] == ["sizes"]:
        sys.exit(1 if sizes(*sys.argv[2:4]) else 0)
    cases = with_bytes([case for name in sys.argv[1:] or FILES for case in cases_of(name)])
    differ = 0
    with tempfile.TemporaryDirectory() as folder:
        tmux = Tmux(folder)
        try:
            for case in cases:
                got = tmux.shown(case)
                if got != case.wanted:
                    differ += 1
                    print(f"{case.place}: {case.size[0]} rows, {case.size[1]} columns\n-- the row\n{case.wanted}\n-- tmux\n{got}")
        finally:
            tmux.run("kill-server")
    print(f"{len(cases) - differ} agree, {differ} differ")
    sys.exit(1 if differ else 0)


if __name__ == "__main__":
    main()
