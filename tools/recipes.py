#!/usr/bin/env python3
"""Runs the commands of README.md and docs/USING.md as they stand there.

usage: tools/recipes.py [--by-hand] [PAGE ..]   (without --by-hand by .ci/run)

A line `<!-- recipe -->` stands above a block of commands, and a line `<!-- recipe: FILE -->` above a block that is written to that file.
The blocks of a page are one script of bash, which ends at the first command that fails. In a block that begins with `$ COMMAND` the other
lines are some that the command prints, one after another. README.md's script runs in a copy of this repository in which nothing was built, that of
docs/USING.md in an empty folder; `~/jilvaho` is this repository. The pages are played at once. Their last lines come where one fails, and the
exit status is 1 then.

A block below `<!-- recipe by hand -->` proves, which may take half an hour. It is left out, unless --by-hand is given. With that, each
block's seconds are printed, and docs/USING.md copies the proofs that this repository has.
"""
import concurrent.futures
import os
import pathlib
import re
import shlex
import subprocess
import sys
import tempfile
import time

TOP = pathlib.Path(__file__).resolve().parent.parent
PAGES = ["README.md", "docs/USING.md"]
# the mark, then a block that is indented or fenced
BLOCK = re.compile(r"^<!-- recipe( by hand)?(?:: (\S+))? -->\n\n?((?:    .*\n|\n(?=    ))+|```\n(?:.*\n)*?```$)", re.M)
# lines that are printed of a page that fails
LAST = 30


class Block:
    """What stands below a mark: whether it is run by hand alone, the file that it is, if it is one, and its lines."""

    def __init__(self, by_hand, file, text):
        self.is_by_hand, self.file = bool(by_hand), file
        is_fenced = text.startswith("```")
        self.lines = text.splitlines()[1:-1] if is_fenced else [line[4:] for line in text.rstrip("\n").split("\n")]

    def script(self, number):
        """The block's lines of the script. What a `$` line prints goes to a file."""
        if self.file:
            return ["cat > " + shlex.quote(self.file) + " <<'END OF FILE'", *self.lines, "END OF FILE"]
        if self.lines[0].startswith("$ "):
            return [self.lines[0][2:] + f" | tee ~/shown{number}"]
        return self.lines

    def is_shown(self, path):
        """Whether the lines below the `$` line stand in this file."""
        if self.file or not self.lines[0].startswith("$ "):
            return True
        wanted = [line.rstrip() for line in self.lines[1:]]
        lines = [line.rstrip() for line in path.read_text(encoding="utf-8").splitlines()]
        return any(lines[at : at + len(wanted)] == wanted for at in range(len(lines)))


def blocks_of(page):
    """The blocks of a page that have a mark."""
    text = (TOP / page).read_text(encoding="utf-8")
    found = [Block(*block) for block in BLOCK.findall(text)]
    if len(found) != text.count("<!-- recipe") or not found:
        sys.exit(f"{page}: a mark without a block, or none")
    return found


def played():
    """The blocks that are files, and those that begin with `$`, as lines."""
    return [block.lines for page in PAGES for block in blocks_of(page) if block.file or block.lines[0].startswith("$ ")]


def copy(folder):
    """This repository without what was built."""
    folder.mkdir()
    pack = subprocess.Popen(["tar", "-C", TOP, "--exclude=out", "--exclude=.git", "-cf", "-", "."], stdout=subprocess.PIPE)
    subprocess.run(["tar", "-C", folder, "-xf", "-"], stdin=pack.stdout, check=True)
    if pack.wait():
        sys.exit("the repository wasn't copied")


def play(page, by_hand):
    """Plays a page: its name, its seconds, and what is wrong, which may be nothing."""
    start = time.monotonic()
    with tempfile.TemporaryDirectory() as name:
        home = pathlib.Path(name)
        where = home / "mine"
        (home / "jilvaho").symlink_to(TOP)
        copy(where) if page == "README.md" else where.mkdir()
        found = [block for block in blocks_of(page) if by_hand or not block.is_by_hand]
        script = ["set -e -o pipefail"]
        for number, block in enumerate(found):
            script += [*block.script(number), f"echo 'recipe: block {number + 1} ends after' $SECONDS seconds"]
        run = subprocess.run(
            ["bash", "-c", "\n".join(script)], cwd=where, env={**os.environ, "HOME": name},
            stdin=subprocess.DEVNULL, stdout=subprocess.PIPE, stderr=subprocess.STDOUT, text=True,
            # (with no terminal of its own: `bars show` would draw on that)
            start_new_session=True,
        )
        last = "\n".join(run.stdout.splitlines()[-LAST:])
        fault = f"status {run.returncode}:\n{last}" if run.returncode else ""
        for number, block in enumerate(found):
            if not fault and not block.is_shown(home / f"shown{number}"):
                fault = f"prints something else: {block.lines[0]}\n{last}"
        if by_hand:
            print("\n".join(line for line in run.stdout.splitlines() if line.startswith("recipe: ")))
    return page, time.monotonic() - start, fault


def main():
    words = sys.argv[1:]
    by_hand = "--by-hand" in words
    pages = [word for word in words if word != "--by-hand"] or PAGES
    with concurrent.futures.ThreadPoolExecutor(len(pages)) as pool:
        played = list(pool.map(lambda page: play(page, by_hand), pages))
    for page, seconds, fault in played:
        print(f"{page}: its commands " + (f"fail: {fault}" if fault else f"run, in {seconds:.0f} seconds"))
    sys.exit(1 if any(fault for _, _, fault in played) else 0)


if __name__ == "__main__":
    main()
