#!/usr/bin/env bash
# How fast `filter` is on made input: a script and a capture of 100,000 frames, with a change of the state every ten
# seconds and three routers that advertise themselves. Beside it `tcpdump -nr` reads the same capture, where tcpdump is
# installed, and bench/plain_filter.c, a plain C program that does the same as filter, writes its reports, where there is
# a C compiler. The two write to files, a line a call, and their reports are to be equal. Wants Python 3, and the proved
# program: run ./install first, or name another build by APF_RUN. It takes a minute.
#
# Goals, of processor seconds (user and system, the best of 15), which other work on the machine disturbs least:
#   - filter takes at most 1.2 times the plain program's;
#   - the time grows linearly with the frames: 100,000 take at most 4.4 times those of 25,000;
#   - an install costs no more than its code's length and the records held: with codes of three times the length, a byte
#     of code takes at most 1.25 times as long.
# Ends with 1 where two reports differ. A goal that is missed is named in the last line.
. "$(dirname "$0")/setting.bash"
python3 - "$program" "$folder" "$top/bench/plain_filter.c" <<'PYTHON'
import os, shutil, struct, subprocess, sys, time

program, folder, source = sys.argv[1:]
FRAMES, FEWER = 100_000, 25_000

def hexadecimal(text):
    return bytearray.fromhex(text)

ARP = hexadecimal("ffffffffffff 020000000099 0806 0001 0800 06 04 0001 020000000099 c0a80109 000000000000 c0a80105")
DATAGRAM = hexadecimal("020000000001 020000000099 0800 4500001c 00000000 40110000 c0a80109 c0a80105 1388 1389 0008 0000")
ADVERTISEMENT = hexadecimal(
    "333300000001 020000000099 86dd 60000000 0058 3a ff fe800000000000000000000000000099"
    "ff020000000000000000000000000001 8600 0000 4000 0708 00000000 00000000 0101 020000000099 0501 0000 000005dc"
    "0304 40c0 00278d00 00093a80 00000000 20010db8000000000000000000000000 1903 0000 00000708"
    "20010db8000000000000000000000001")
DENIED = hexadecimal("ffffffffffff 020000000099 88a2") + bytes(46)
NAME_QUERY = hexadecimal(
    "3333000000fb 020000000099 86dd 60000000 0008 11 ff fe800000000000000000000000000099"
    "ff0200000000000000000000000000fb 14e9 14e9 0008 0000")

def changed(frame, *changes):
    frame = bytearray(frame)
    for place, byte in changes:
        frame[place] = byte
    return frame

def frame_of(k):
    return [
        lambda: changed(ARP, (41, k % 256)),
        lambda: DATAGRAM,
        lambda: changed(DATAGRAM, *((place, 255) for place in range(6)), (33, 255)),
        lambda: changed(ADVERTISEMENT, (37, k // 6 % 3)),
        lambda: DENIED,
        lambda: NAME_QUERY,
    ][k % 6]()

def made_script(count):
    lines = ["apf 1", "mac 02:00:00:00:00:01", "capacity 2048", "start 1000", "drop802 on", "deny 88a2",
             "at 1000 multicast on", "at 1000 address 192.168.1.5/24"]
    lines += [f"at {1000 + 10 * j} doze {'on' if j % 2 else 'off'}" for j in range(1, count // 10 + 1)]
    return "".join(line + "\n" for line in lines).encode()

def made_capture(count, lone=False):
    """The made capture; with `lone` each advertisement is another name query."""
    out = bytearray(struct.pack("<IHHiIII", 0xA1B2C3D4, 2, 4, 0, 0, 262144, 1))
    for k in range(1, count + 1):
        frame = NAME_QUERY if lone and k % 6 == 3 else frame_of(k)
        out += struct.pack("<IIII", 1000 + k, 0, len(frame), len(frame)) + frame
    return bytes(out)

def write(path, content):
    with open(path, "wb") as out:
        out.write(content)

def made(what, count, here):
    """The input that the program makes, which is to be what is made here; and what is made here where it has no `make`."""
    path = os.path.join(folder, f"{what}.{count}")
    with open(path, "wb") as out:
        done = subprocess.run([program, "make", what, str(count)], stdout=out, stderr=subprocess.DEVNULL)
    assert done.returncode in (0, 64), done
    if done.returncode == 64:
        print(f"{what} of {count:,}: made here, since the program has no command `make`")
        write(path, here(count))
    else:
        with open(path, "rb") as it:
            assert it.read() == here(count), f"`make {what} {count}` is not what the rule says"
    return path

def run(words, output):
    """Processor seconds, and seconds by the clock."""
    with open(output, "wb") as out:
        start = time.monotonic()
        child = subprocess.Popen(words, stdout=out, stderr=subprocess.DEVNULL)
        _, status, usage = os.wait4(child.pid, 0)
        assert status == 0, (words, status)
        return usage.ru_utime + usage.ru_stime, time.monotonic() - start

def peak_of(words):
    """The most memory in MiB, asked for as the program runs: what wait4 tells begins with this script's own."""
    peak = 0
    child = subprocess.Popen(words, stdout=subprocess.DEVNULL, stderr=subprocess.DEVNULL)
    while child.poll() is None:
        with open(f"/proc/{child.pid}/status", encoding="ascii") as it:
            peak = max([peak] + [int(line.split()[1]) for line in it if line.startswith("VmHWM")])
    return peak / 2**10

def best_of(jobs):
    """For each job its least cost. They run in turn, so that other work on the machine meets all of them."""
    rounds = [{name: run(*job) for name, job in jobs.items()} for _ in range(15)]
    return {name: min(costs[name] for costs in rounds) for name in jobs}

def installs_of(report):
    """The number of installs, and the bytes of their codes."""
    installs = code = 0
    with open(report, encoding="ascii") as it:
        for line in it:
            if line.startswith("gen "):
                installs += 1
                code += int(line.split(" ", 6)[5])
    return installs, code

def check_equal(report, other):
    with open(report, "rb") as these, open(other, "rb") as those:
        lines, others = these.readlines(), those.readlines()
    differing = next((pair for pair in zip(lines, others) if pair[0] != pair[1]), "none but the number of lines")
    assert lines == others, f"{os.path.basename(report)}: the plain program's report differs first at: {differing}"
    print(f"{os.path.basename(report)}: the {len(lines):,} lines of the two reports are equal")

# The made input, the same without changes of the state, both without advertisements, whose records make the codes
# long, and the made input of fewer frames.
script, capture = made("script", FRAMES, made_script), made("capture", FRAMES, made_capture)
still, lone = os.path.join(folder, "still"), os.path.join(folder, "lone")
write(still, b"".join(made_script(FRAMES).splitlines(True)[:8]))
write(lone, made_capture(FRAMES, lone=True))
inputs = {
    "filter": (script, capture),
    "filter, no changes of the state": (still, capture),
    "filter, no advertisements": (script, lone),
    "filter, neither": (still, lone),
    "filter, fewer frames": (made("script", FEWER, made_script), made("capture", FEWER, made_capture)),
}
reports = {name: os.path.join(folder, name) for name in inputs}
compiler = next(filter(None, map(shutil.which, ("cc", "gcc", "clang"))), None)
plain_of = {name: name.replace("filter", "plain program") for name in inputs} if compiler else {}
reports.update((name, os.path.join(folder, name)) for name in plain_of.values())
if compiler:
    plain = os.path.join(folder, "plain_filter")
    subprocess.run([compiler, "-O2", "-o", plain, source], check=True)
else:
    print("there is no C compiler: the plain program is left out")
# The two programs run on an input one behind the other.
jobs = {}
for name, files in inputs.items():
    jobs[name] = [program, "filter", *files], reports[name]
    if compiler:
        jobs[plain_of[name]] = [plain, *files], reports[plain_of[name]]
if shutil.which("tcpdump"):
    jobs["tcpdump -nr"] = ["tcpdump", "-nr", capture], os.path.join(folder, "tcpdump")
else:
    print("tcpdump isn't installed: nothing to compare with")

for job in jobs.values():
    run(*job)
for name, other in plain_of.items():
    check_equal(reports[name], reports[other])

costs = best_of(jobs)
for name, (words, _) in jobs.items():
    seconds, clock = costs[name]
    frames = FEWER if "fewer" in name else FRAMES
    rates = f"{frames / seconds:,.0f} frames/s"
    if name in reports:
        installs = installs_of(reports[name])[0]
        rates += f", {installs:,} installs, {installs / seconds:,.0f} installs/s"
    print(f"{name}: {seconds:.3f} s ({clock:.3f} s by the clock), {rates}, peak {peak_of(words):.1f} MiB")
sizes = [os.path.getsize(path) / 2**20 for path in (capture, reports["filter"])]
print(f"the capture has {sizes[0]:.1f} MiB, the report {sizes[1]:.1f} MiB")

def cost_of_code(busy, quiet):
    """Seconds a byte of code, by what a program takes with changes of the state and without them."""
    (installs, code), (few, little) = installs_of(reports[busy]), installs_of(reports[quiet])
    installs, code, seconds = installs - few, code - little, costs[busy][0] - costs[quiet][0]
    print(f"{busy}: {seconds / installs * 1e6:.1f} us an install, {code / installs:.0f} bytes of code, {seconds / code * 1e9:.1f} ns a byte")
    return seconds / code

missed = []

def goal(text, value, most):
    print(f"{text}: {value:.2f}, goal at most {most}")
    if value > most:
        missed.append(text)

long_codes = cost_of_code("filter", "filter, no changes of the state")
short_codes = cost_of_code("filter, no advertisements", "filter, neither")
goal("a byte of a long code in times of one of a short code", long_codes / short_codes, 1.25)
goal(f"{FRAMES:,} frames in times of {FEWER:,}", costs["filter"][0] / costs["filter, fewer frames"][0], 4.4)
if plain_of:
    cost_of_code("plain program", "plain program, no changes of the state")
    cost_of_code("plain program, no advertisements", "plain program, neither")
for name, other in plain_of.items():
    ratio = costs[name][0] / costs[other][0]
    if name == "filter":
        goal("filter, in times of the plain program", ratio, 1.2)
    else:
        print(f"{name}, in times of the plain program: {ratio:.2f}")
if missed:
    print(f"missed: {'; '.join(missed)}")
else:
    print("every goal is met" if compiler else "every goal is met but that beside the plain program, which wasn't tried")
PYTHON
