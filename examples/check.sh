#!/usr/bin/env bash
# Runs each command that the README and docs/ print with its output, and compares. Wants Python 3. `./try` stands for the
# proved program where it is newer than all sources, and compiles one else. Then docs/TRUSTED.md is compared with the
# definitions that the headline reaches, and a capture is taken from a pipe.
set -eu
top=$(cd "$(dirname "$0")/.." && pwd)
folder=$(mktemp -d)
trap 'rm -rf "$folder"' EXIT
ln -s "$top/examples" "$folder/examples"
program=$top/crates/apf_run/out/apf_run
if [ ! -x "$program" ] || [ -n "$(find "$top/crates" -name '*.rt' -newer "$program" -print -quit)" ]; then
  program=$top/try
fi
printf '#!/bin/sh\nexec "%s" "$@"\n' "$program" > "$folder/try"
chmod +x "$folder/try"
python3 - "$top" "$folder" <<'PYTHON'
import glob, os, re, subprocess, sys

top, folder = sys.argv[1:]
failed = 0
for page in [os.path.join(top, "README.md"), *sorted(glob.glob(os.path.join(top, "docs", "*.md")))]:
    for block in re.findall(r"^```\n(.*?)^```$", open(page, encoding="utf-8").read(), re.M | re.S):
        if not block.startswith("$ ") or ".ci/run" in block:
            continue
        for command, _, wanted in (part.partition("\n") for part in re.split(r"^\$ ", block, flags=re.M)[1:]):
            ran = subprocess.run(command, shell=True, cwd=folder, stdout=subprocess.PIPE, stderr=subprocess.STDOUT, text=True)
            if ran.stdout != wanted:
                failed += 1
                print(f"{os.path.basename(page)}: $ {command}\nprinted\n{ran.stdout}in place of\n{wanted}")
if failed:
    sys.exit(f"{failed} examples don't print what they should")
print("the examples print what they should")
PYTHON
python3 "$top/examples/trusted.py"
"$top/examples/pipe.sh"
