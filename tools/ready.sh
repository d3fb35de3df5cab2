#!/usr/bin/env bash
# What is refused without a proof, in half a minute: a file that `rt fmt` would change (the gate doesn't prove its crate then), a page or
# an edit that doesn't fit the sources, a line past 200 characters (imports, rows of tables and of data aside). Run it before each commit. It lays
# files out, and changes nothing else.
#
# usage: tools/ready.sh
cd "$(dirname "$0")/.." || exit 2
bad=0
for crate in crates/*/; do
    laid_out=$(cd "$crate" && rt fmt)
    [ -z "$laid_out" ] || { printf '%s %s\n' "$crate" "$laid_out"; bad=1; }
done
python3 tools/pages.py || bad=1
python3 tools/edits.py check || bad=1
git ls-files -z 'crates/*.rt' 'crates/*.antt' 'crates/rows/data/*.txt' 'docs/*.md' README.md | python3 -c '
import sys
bad = 0
for name in filter(None, sys.stdin.read().split("\0")):
    with open(name, encoding="utf-8") as file:
        for number, line in enumerate(file, 1):
            if name.endswith(".txt") and not line.startswith("#"):
                continue
            if len(line.rstrip("\n")) > 200 and not line.lstrip().startswith(("|", "use ", "pub use ", "ghost use ")):
                print(f"{name}:{number}: {len(line)} characters")
                bad = 1
sys.exit(bad)' || bad=1
[ "$bad" -ne 0 ] || echo "ready"
exit "$bad"
