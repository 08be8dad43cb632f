#!/usr/bin/env bash
# How fast `live` answers 100,000 made frames by 1, 2, 4, 8 and 16 lanes, beside `filter` on the same script and capture:
# without installs, with one every 1,000 frames, and with one every 10 frames. Each advertisement of the made capture is
# another name query here, since lanes learn from none. Where a script installs nothing, `live` is to answer each frame
# as `filter` does. At last 10,000 events stand beside one frame. Wants Python 3, and the proved program: run ./install first, or name another build by APF_RUN. It
# takes half a minute.
#
# Goals, by the clock, the best of 7 runs in turn: with as many lanes as processors `live` is no slower than `filter`, for
# each script; and one lane takes at most 100 ns a frame more than `filter`, where nothing is installed (weaving and the
# lane's words in the lines are in it too).
# Ends with 1 where the answers differ. A goal that is missed is named in the last line.
. "$(dirname "$0")/setting.bash"
python3 - "$program" "$folder" <<'PYTHON'
import os, struct, subprocess, sys, time

program, folder = sys.argv[1:]
FRAMES, LANES, ROUNDS = 100_000, (1, 2, 4, 8, 16), 7
NAME_QUERY = bytes.fromhex(
    "3333000000fb 020000000099 86dd 60000000 0008 11 ff fe800000000000000000000000000099"
    "ff0200000000000000000000000000fb 14e9 14e9 0008 0000")

def path_of(name):
    return os.path.join(folder, name)

def made_capture():
    """The made capture, with a name query in the place of each advertisement: that of frame k where k is 3 more than a
    multiple of 6."""
    made = subprocess.run([program, "make", "capture", str(FRAMES)], stdout=subprocess.PIPE, check=True).stdout
    out, at = bytearray(made[:24]), 24
    for k in range(1, FRAMES + 1):
        second, fraction, length, original = struct.unpack_from("<IIII", made, at)
        frame = NAME_QUERY if k % 6 == 3 else made[at + 16:at + 16 + length]
        out += struct.pack("<IIII", second, fraction, len(frame), len(frame)) + frame
        at += 16 + length
    return bytes(out)

def script_of(installs):
    """A script with so many changes of the state, spread evenly over the frames."""
    lines = ["apf 1", "mac 02:00:00:00:00:01", "capacity 2048", "start 1000", "drop802 on", "deny 88a2"]
    lines += [f"at {1001 + j * FRAMES // max(installs, 1)} doze {'off' if j % 2 else 'on'}" for j in range(installs)]
    return "".join(line + "\n" for line in lines).encode()

def write(name, content):
    with open(path_of(name), "wb") as out:
        out.write(content)
    return path_of(name)

def run(words, name):
    """Seconds by the clock, and seconds of processors."""
    with open(path_of(name), "wb") as out:
        start = time.monotonic()
        child = subprocess.Popen([program, *words], stdout=out)
        _, status, usage = os.wait4(child.pid, 0)
        assert status == 0, (words, status)
        return time.monotonic() - start, usage.ru_utime + usage.ru_stime

def frames_of(report):
    """The lines of the frames, without their lanes."""
    with open(path_of(report), encoding="ascii") as it:
        words = [line.split() for line in it if line.startswith("frame ")]
    return [[w[0], w[1], *w[4:]] if w[2] == "lane" else w for w in words]

capture = write("capture", made_capture())
missed = []
for name, installs in {"no install": 0, "one every 1,000 frames": FRAMES // 1000, "one every 10 frames": FRAMES // 10}.items():
    script = write("script", script_of(installs))
    jobs = {"filter": ["filter", script, capture]}
    jobs.update((f"{lanes} lanes", ["live", script, capture, str(lanes)]) for lanes in LANES)
    rounds = [{job: run(words, job) for job, words in jobs.items()} for _ in range(ROUNDS)]
    best = {job: min(costs[job] for costs in rounds) for job in jobs}
    for job, (seconds, processors) in best.items():
        print(f"{name}, {job}: {seconds:.3f} s, {processors:.3f} s of processors")
    if installs == 0:
        # At 100,000 frames each lane's seconds only rise, so its ages are those of `filter`.
        assert frames_of("1 lanes") == frames_of("filter"), "one lane answers otherwise than filter"
        assert frames_of("16 lanes") == frames_of("filter"), "sixteen lanes answer otherwise than filter"
        more = (best["1 lanes"][0] - best["filter"][0]) / FRAMES * 1e9
        print(f"one lane takes {more:.0f} ns a frame more than filter")
        if more > 100:
            missed.append("one lane takes more than 100 ns a frame above filter")
    here = max(lanes for lanes in LANES if lanes <= (os.cpu_count() or 1))
    if best[f"{here} lanes"][0] > best["filter"][0]:
        missed.append(f"{name}: {here} lanes are slower than filter")
# Beside one frame every event of the script is installed, by any number of lanes.
alone = write("alone", made_capture()[:24 + 16 + 42])
for lanes in LANES:
    seconds, processors = run(["live", script, alone, str(lanes)], "report")
    with open(path_of("report"), encoding="ascii") as it:
        kinds = [line.split()[0] for line in it]
    assert kinds.count("gen") == FRAMES // 10 + 1 and kinds.count("frame") == 1, (lanes, len(kinds))
    print(f"{FRAMES // 10:,} events beside one frame, {lanes} lanes: {seconds:.3f} s, {processors:.3f} s of processors")
print("missed: " + "; ".join(missed) if missed else "all goals are met")
PYTHON
