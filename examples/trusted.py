#!/usr/bin/env python3
"""Compares docs/TRUSTED.md with the files of definitions that the headline's clause reaches.

From crates/apf_run/specs/Filtered.antt it follows each `use` line to a file of specs/ in this repository. Lines are
counted without comments, `use` lines and blank lines.
"""
import os
import re
import sys

TOP = os.path.dirname(os.path.dirname(os.path.abspath(__file__)))
START = "crates/apf_run/specs/Filtered.antt"
USE = re.compile(r"use Rattle\.(\w+)\.specs\.([\w.]+?)(?:\.\{.*\}| as \w+)$")


def uses(lines):
    """The files that these lines import, of this repository and not of types that are declared in code."""
    for line in lines:
        found = USE.match(line)
        if found and not found[2].startswith("declared."):
            path = f"crates/{found[1]}/specs/{found[2].replace('.', '/')}.antt"
            if os.path.exists(os.path.join(TOP, path)):
                yield path


def counted(lines):
    return sum(1 for line in lines if line.strip() and not line.strip().startswith(("--", "use ")))


def reached():
    """Each file that is reached, with its number of lines."""
    found, left = {}, [START]
    while left:
        path = left.pop()
        if path not in found:
            lines = open(os.path.join(TOP, path), encoding="utf-8").read().splitlines()
            found[path] = counted(lines)
            left.extend(uses(lines))
    return found


def listed():
    """The rows of the page: file and number of lines, and the two sums."""
    page = open(os.path.join(TOP, "docs", "TRUSTED.md"), encoding="utf-8").read()
    rows = {f"crates/{crate}/specs/{name}.antt": int(lines)
            for crate, name, lines in re.findall(r"^\| `(\w+)` `(\w+)` \| (\d+) \|", page, re.M)}
    lines, files = re.search(r"([\d,]+) lines in (\d+) files", page).groups()
    return rows, int(lines.replace(",", "")), int(files)


def main():
    found = reached()
    rows, lines, files = listed()
    wrong = [f"not listed: {path} {n}" for path, n in sorted(found.items()) if path not in rows]
    wrong += [f"not reached: {path}" for path in sorted(rows) if path not in found]
    wrong += [f"{path} has {found[path]} lines" for path, n in sorted(rows.items()) if found.get(path, n) != n]
    if (sum(found.values()), len(found)) != (lines, files):
        wrong.append(f"in all {sum(found.values())} lines in {len(found)} files")
    if wrong:
        sys.exit("docs/TRUSTED.md:\n" + "\n".join(wrong))
    print(f"docs/TRUSTED.md lists the {files} files that the headline reaches")


main()
