#!/usr/bin/env bash
# Whether `filter` and bench/plain_filter.c, a plain C program that was written from the documents, write the same bytes
# on random scripts and captures: bench/agree.sh [CASES], 1000 where no number is given. At the end it says how often each
# kind of line stood in the reports. Wants Python 3, a C compiler and the proved program: run ./install first, or name
# another build by APF_RUN. A thousand cases take half a minute. Ends with 1 at the first case in which the two differ.
. "$(dirname "$0")/setting.bash"
${CC:-cc} -O2 -o "$folder/plain_filter" "$top/bench/plain_filter.c"
cd "$top/bench"
python3 -B - "$program" "$folder" "${1:-1000}" <<'PYTHON'
import collections, os, subprocess, sys

from random_input import Case

program, folder, cases = sys.argv[1], sys.argv[2], int(sys.argv[3])
script, capture = os.path.join(folder, "script"), os.path.join(folder, "capture")
seen = collections.Counter()

def report_of(*words):
    done = subprocess.run([*words, script, capture], stdout=subprocess.PIPE, stderr=subprocess.PIPE, check=False)
    assert done.returncode == 0, (words[0], done.returncode, done.stderr)
    return done.stdout

def kind_of(line):
    words = line.split()
    if words[0] == "frame":
        return f"{words[6]} {words[7]}"
    if words[0] == "refused":
        return f"refused, {words[3]}"
    if words[0] == "ra":
        return "ra, " + " ".join(words[2:4] if words[2] == "bad" else words[2:3])
    if words[0] == "gen":
        return "gen, none left out" if words[7] == "none" else "gen, some left out"
    return words[0]

for seed in range(cases):
    case = Case(seed)
    for path, content in ((script, case.script()), (capture, case.capture())):
        with open(path, "wb") as out:
            out.write(content)
    ours, plain = report_of(program, "filter"), report_of(os.path.join(folder, "plain_filter"))
    if ours != plain:
        sys.exit(f"case {seed}: the reports differ. Case({seed}) of bench/random_input.py makes its files")
    seen.update(kind_of(line) for line in ours.decode().splitlines())

for kind, count in sorted(seen.items()):
    print(f"{count:>9,}  {kind}")
print(f"{cases:,} cases: every report of the two programs is equal")
PYTHON
