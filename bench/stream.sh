#!/usr/bin/env bash
# How much memory `exec` and `filter` take for captures of 1, 10 and 100 MB, and how many bytes a second they read. Then
# `exec` reads a capture of frames of 262,144 bytes, one record longer than a capture may be: it is to write the lines of
# all records but that one, and to end with `capture: length`. Wants Python 3, 200 MB of disk, and the proved program: run
# ./install first, or name another build by APF_RUN. It takes a minute.
#
# Goal: the most memory doesn't grow with the capture: at 100 MB it is at most 1 MiB more than at 1 MB.
# Ends with 1 where the long capture isn't read so. A goal that is missed is named in the last line.
. "$(dirname "$0")/setting.bash"
python3 - "$program" "$folder" "$top/examples/first.apf" <<'PYTHON'
import os, struct, subprocess, sys, time

program, folder, code = sys.argv[1:]
HEAD = struct.pack("<IHHiIII", 0xA1B2C3D4, 2, 4, 0, 0, 262144, 1)
ARP = bytes.fromhex("ffffffffffff 020000000099 0806 0001 0800 06 04 0001 020000000099 c0a80109 000000000000 c0a80105")
LONGEST, LAST_OFFSET = 262_144, 4_294_967_295

def record_head(second, length):
    return struct.pack("<IIII", second, 0, length, length)

def capture_of(size):
    """A capture of about so many bytes: ARP requests, ten a second."""
    path = os.path.join(folder, f"{size}.pcap")
    with open(path, "wb") as out:
        out.write(HEAD)
        for number in range(size // (16 + len(ARP))):
            out.write(record_head(1000 + number // 10, len(ARP)) + ARP)
    return path

def run(words):
    """Seconds, and the most memory in MiB, asked for as the program runs: what wait4 tells begins with this script's."""
    peak, start = 0, time.monotonic()
    with open(os.path.join(folder, "out"), "wb") as out:
        child = subprocess.Popen([program, *words], stdout=out)
        while child.poll() is None:
            with open(f"/proc/{child.pid}/status", encoding="ascii") as it:
                peak = max([peak] + [int(line.split()[1]) for line in it if line.startswith("VmHWM")])
    assert child.returncode == 0, (words, child.returncode)
    return time.monotonic() - start, peak / 2**10

script = os.path.join(folder, "script")
with open(script, "w", encoding="ascii") as out:
    out.write("apf 1\nmac 02:00:00:00:00:01\ncapacity 2048\nstart 1000\ndrop802 on\ndeny none\nat 1000 address 192.168.1.5/24\n")
missed = []
for name, words in {"exec": ["exec", code, None, "0"], "filter": ["filter", script, None]}.items():
    peaks = []
    for size in (1_000_000, 10_000_000, 100_000_000):
        path = capture_of(size)
        seconds, peak = run([path if word is None else word for word in words])
        peaks.append(peak)
        print(f"{name}, {size // 1_000_000} MB: {os.path.getsize(path) / seconds / 1e6:,.1f} MB/s, peak {peak:.1f} MiB")
        os.remove(path)
    if peaks[-1] > peaks[0] + 1:
        missed.append(f"the memory of {name} grows")

long = os.path.join(folder, "long.pcap")
whole = (LAST_OFFSET - len(HEAD)) // (16 + LONGEST)
with open(long, "wb") as out:
    out.write(HEAD)
    for number in range(whole + 1):
        out.write(record_head(1000, LONGEST))
        out.seek(LONGEST, os.SEEK_CUR)
    out.truncate(out.tell())
start = time.monotonic()
done = subprocess.run([program, "exec", code, long, "0"], stdout=subprocess.PIPE, stderr=subprocess.PIPE, text=True)
seconds = time.monotonic() - start
lines = done.stdout.count("\n")
print(f"exec, {whole:,} frames of {LONGEST:,} bytes: {whole * LONGEST / seconds / 1e6:,.1f} MB/s, {lines:,} lines, {done.stderr.strip()}")
assert (done.returncode, lines, done.stderr) == (65, whole, "apf_run: capture: length\n"), (done.returncode, lines, done.stderr)
print(f"missed: {'; '.join(missed)}" if missed else "every goal is met")
PYTHON
