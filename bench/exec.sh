#!/usr/bin/env bash
# How fast `exec` runs a program of 40 instructions over a capture of 100,000 frames, beside `tcpdump -nr` on the same
# file where tcpdump is installed. Wants Python 3, and the proved program: run ./install first.
#
# Goal: less time than tcpdump. What memory it takes is measured by stream.sh.
. "$(dirname "$0")/setting.bash"
python3 - "$program" "$folder" <<'PYTHON'
import os, shutil, struct, subprocess, sys, time

program, folder = sys.argv[1:]
FRAMES = 100_000
header = bytes.fromhex("d4c3b2a1020004000000000000000000000004000100 0000")
ends = bytes.fromhex("020000000001020000000099")
bodies = [
    bytes.fromhex("080600010800060400010200000000 99c0a80109000000000000c0a80105"),
    bytes.fromhex("08004500001c0000000040110000c0a80109c0a801051388138900080000") + bytes(40),
    bytes.fromhex("86dd60000000000811fffe800000000000000000000000000099ff0200000000000000000000000000fb14e914e900080000") + bytes(80),
]
capture = os.path.join(folder, "frames.pcap")
with open(capture, "wb") as out:
    out.write(header)
    for number in range(FRAMES):
        frame = ends + bodies[number % 3]
        out.write(struct.pack("<IIII", 1000 + number // 100, 0, len(frame), len(frame)) + frame)

# lddw r0 -4, add 1, stdw r0 -4: a counter; then loads and comparisons of which none jumps; then pass
code = bytes.fromhex("b2fc3a01bafc")
code += bytes.fromhex("120c" "8c0000ffff") * 6        # ldh r0 12, jgt.2 r0 0 65535
code += bytes.fromhex("0a14" "7a00fe") * 6            # ldb r0 20, jeq.1 r0 0 254
code += bytes.fromhex("b2f83a01baf8")                 # a second counter
code += bytes.fromhex("1a0e" "aa20" "aa20" "aa23") * 2 # ldw r0 14, not, not, move
code += bytes.fromhex("70")                           # jmp.0: to the end, which passes
path = os.path.join(folder, "program.apf")
with open(path, "wb") as out:
    out.write(code)

def run(words):
    with open(os.path.join(folder, "out"), "wb") as out:
        start = time.monotonic()
        child = subprocess.Popen(words, stdout=out, stderr=subprocess.DEVNULL)
        _, status, usage = os.wait4(child.pid, 0)
        return time.monotonic() - start, usage.ru_maxrss * 1024, status

size = os.path.getsize(capture)
best = min((run([program, "exec", path, capture, "0"]) for _ in range(3)), key=lambda it: it[0])
lines = open(os.path.join(folder, "out")).read().splitlines()
assert best[2] == 0 and len(lines) == FRAMES + 1, (best, len(lines))
print(f"exec: {lines[0]}")
seconds, memory, _ = best
print(f"exec: {seconds:.3f} s, {FRAMES / seconds:,.0f} frames/s, {size / seconds / 1e6:,.1f} MB/s, peak {memory / 2**20:.1f} MiB (capture {size / 2**20:.1f} MiB)")
if shutil.which("tcpdump"):
    seconds, memory, _ = min((run(["tcpdump", "-nr", capture]) for _ in range(3)), key=lambda it: it[0])
    print(f"tcpdump -nr: {seconds:.3f} s, peak {memory / 2**20:.1f} MiB")
else:
    print("tcpdump isn't installed: nothing to compare with")
PYTHON
