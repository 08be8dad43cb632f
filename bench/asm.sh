#!/usr/bin/env bash
# How fast `disasm` lists 65,535 bytes, and `asm` assembles texts of 1 MiB: plain lines, 100,000 labels and jumps, and a chain of jumps of which each
# gets its width from those behind it. Wants Python 3, and the proved program: run ./install first.
#
# Goal: the listing and plain lines in less than one second, labels and the chain in less than two.
. "$(dirname "$0")/setting.bash"
python3 - "$program" "$folder" <<'PYTHON'
import os, subprocess, sys, time

program, folder = sys.argv[1:]
SIZE = 1_048_576

def padded(lines):
    text = "\n".join(lines) + "\n"
    assert len(text) <= SIZE, len(text)
    return text + ";" * (SIZE - len(text))

plain = padded(["add r1 ; a comment"] * 55_000)
labels = padded([line for n in range(50_000) for line in (f"jmp L{n}", f"L{n}:")])
# Each jump goes over the next 84 jumps, which takes one byte where they take few enough.
chain = padded([line for n in range(20_000) for line in (f"L{n}:", f"jeq 1 L{n + 84}")] + [f"L{n}:" for n in range(20_000, 20_084)])

def best_of(words):
    best = None
    for _ in range(3):
        start = time.monotonic()
        child = subprocess.Popen([program, *words], stdout=subprocess.PIPE)
        output = child.stdout.read()
        _, status, usage = os.wait4(child.pid, 0)
        assert status == 0, status
        seconds = time.monotonic() - start
        best = min(best or seconds, seconds)
    return f"{len(output):,} in {best:.3f} s, peak {usage.ru_maxrss / 1024:.1f} MiB"

path = os.path.join(folder, "code")
with open(path, "wb") as out:
    out.write(bytes(n * 7 % 256 for n in range(65_535)))
print(f"disasm: 65,535 bytes to {best_of(['disasm', path])}")

for name, text in ("plain lines", plain), ("labels and jumps", labels), ("chain of jumps", chain):
    path = os.path.join(folder, "text")
    with open(path, "w") as out:
        out.write(text)
    print(f"asm, {name}: {len(text):,} bytes to {best_of(['asm', path])}")
PYTHON
