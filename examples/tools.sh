#!/usr/bin/env bash
# Tries the captures that other tools write. Each capture of this folder is written anew by tcpdump, editcap and tshark,
# in each form that they have, and by this script with the bytes of all numbers turned; `exec` is to print the same lines
# for each, or to refuse it as docs/CAPTURE.md says. And the capture that `make` writes is to be read by the tools.
#
# Runs the program that APF_RUN names, else the one that was built here, else ./try, which takes half a minute for each of
# some thirty captures. Ends with 0 where all agree, and where tcpdump or tshark are missing, since then nothing is tried.
# Wants Python 3.
set -eu
top=$(cd "$(dirname "$0")/.." && pwd)
for tool in tcpdump tshark editcap; do
  command -v "$tool" >/dev/null || { echo "skipped: there is no $tool here"; exit 0; }
done
program=$top/crates/apf_run/out/apf_run
[ -x "$program" ] || program=$top/try
folder=$(mktemp -d)
trap 'rm -rf "$folder"' EXIT
program=$(realpath -- "${APF_RUN:-$program}")
cp "$top/examples/first.apf" "$top"/examples/*.pcap "$folder"
cd "$folder"
python3 - "$program" <<'PYTHON'
import glob, gzip, shutil, struct, subprocess, sys

program = sys.argv[1]
MADE = 300
REFUSED = 65

def ran(words, statuses=(0,)):
    """What a tool wrote, which is to end with one of these statuses."""
    done = subprocess.run(words, stdin=subprocess.DEVNULL, stdout=subprocess.PIPE, stderr=subprocess.PIPE)
    if done.returncode not in statuses:
        sys.exit(f"{' '.join(words)} ended with {done.returncode}:\n{done.stderr.decode()}")
    return done.stdout

def bytes_of(path):
    with open(path, "rb") as it:
        return it.read()

def written(path, content):
    with open(path, "wb") as it:
        it.write(content)
    return path

def tool(words, into, statuses=(0,)):
    """The file that a tool writes: OUT in its words stands for the name."""
    ran([into if word == "OUT" else word for word in words], statuses)
    return into

def turned(content):
    """A little-endian capture with the bytes of all its numbers turned (docs/CAPTURE.md)."""
    out = struct.pack(">IHHIIII", *struct.unpack("<IHHIIII", content[:24]))
    at = 24
    while at < len(content):
        head = struct.unpack("<IIII", content[at : at + 16])
        out += struct.pack(">IIII", *head) + content[at + 16 : at + 16 + head[2]]
        at += 16 + head[2]
    return out

def offsets(content):
    """Where the records of a little-endian capture begin."""
    at = 24
    while at < len(content):
        yield at
        at += 16 + struct.unpack("<I", content[at + 8 : at + 12])[0]

known = {}

def exec_on(path):
    """Output, error lines and status of `exec`. Files with the same bytes are tried once."""
    content = bytes_of(path)
    if content not in known:
        done = subprocess.run([program, "exec", "first.apf", path, "0"], stdout=subprocess.PIPE, stderr=subprocess.PIPE)
        known[content] = done.stdout, done.stderr.decode(), done.returncode
    return known[content]

wrong = tried = 0

def expect(path, what, wanted):
    global wrong, tried
    tried += 1
    given = exec_on(path)
    if given != wanted:
        wrong += 1
        print(f"{path} ({what}): {given} in place of {wanted}")

def refused(text, lines=b""):
    return lines, f"apf_run: capture: {text}\n", REFUSED

def forms_of(original, stem):
    """Captures with the same frames: what each is, and its file."""
    yield "the original", original
    yield "tcpdump", tool(["tcpdump", "-r", original, "-w", "OUT"], f"{stem}.tcpdump")
    yield "tcpdump --nano", tool(["tcpdump", "--nano", "-r", original, "-w", "OUT"], f"{stem}.nano")
    for form in "pcap", "nsecpcap":
        yield f"editcap {form}", tool(["editcap", "-F", form, original, "OUT"], f"{stem}.editcap.{form}")
        yield f"tshark {form}", tool(["tshark", "-r", original, "-F", form, "-w", "OUT"], f"{stem}.tshark.{form}")
    new = f"{stem}.pcapng"
    tool(["editcap", "-F", "pcapng", original, "OUT"], new)
    yield "tcpdump of pcapng", tool(["tcpdump", "-r", new, "-w", "OUT"], f"{stem}.back.tcpdump")
    yield "editcap of pcapng", tool(["editcap", "-F", "pcap", new, "OUT"], f"{stem}.back.editcap")
    yield "tshark of pcapng", tool(["tshark", "-r", new, "-F", "pcap", "-w", "OUT"], f"{stem}.back.tshark")
    packed = written(f"{stem}.gz", gzip.compress(bytes_of(original)))
    yield "editcap of gzip", tool(["editcap", "-F", "pcap", packed, "OUT"], f"{stem}.back.gz")
    for form in "modpcap", "nokiapcap", "rh6_1pcap":
        tool(["editcap", "-F", form, original, "OUT"], f"{stem}.{form}")
        back = tool(["editcap", "-F", "pcap", f"{stem}.{form}", "OUT"], f"{stem}.back.{form}")
        yield f"editcap of {form}", back
    for name in f"{stem}.tcpdump", f"{stem}.nano":
        yield "big-endian", written(f"{name}.big", turned(bytes_of(name)))

def others_of(original, stem):
    """Captures that are refused: what each is, its file, and why."""
    yield "pcapng of editcap", f"{stem}.pcapng", "magic"
    yield "pcapng of tshark", tool(["tshark", "-r", original, "-w", "OUT"], f"{stem}.tshark.pcapng"), "magic"
    yield "gzip", f"{stem}.gz", "magic"
    yield "modpcap", f"{stem}.modpcap", "magic"
    if shutil.which("zstd"):
        yield "zstd", tool(["zstd", "-q", original, "-o", "OUT"], f"{stem}.zst"), "magic"
    for name, number in ("linux-sll2", 276), ("linux-sll", 113), ("rawip", 101), ("ieee-802-11", 105):
        path = tool(["editcap", "-F", "pcap", "-T", name, original, "OUT"], f"{stem}.{name}")
        yield f"link type {name}", path, f"link {number}"

def try_cut(original, stem, lines):
    """A capture that is cut within its last record, and what editcap and tcpdump make of it."""
    content = bytes_of(original)
    last = list(offsets(content))[-1]
    whole = b"".join(lines.splitlines(True)[:-2])
    cut = written(f"{stem}.cut", content[:-1])
    expect(cut, "cut", refused(f"cut at {last}", whole))
    shorter = exec_on(written(f"{stem}.shorter", content[:last]))
    expect(tool(["editcap", "-F", "pcap", cut, "OUT"], f"{stem}.cut.editcap", (0, 1, 2)), "editcap of a cut file", shorter)
    expect(tool(["tcpdump", "-r", cut, "-w", "OUT"], f"{stem}.cut.tcpdump", (1,)), "tcpdump of a cut file", shorter)
    if shorter[2] or not shorter[0].startswith(whole):
        sys.exit(f"{stem}.shorter: {shorter} doesn't begin with {whole}")

def try_made():
    """The capture that `make` writes, as the tools read it."""
    global wrong
    done = subprocess.run([program, "make", "capture", str(MADE)], stdout=subprocess.PIPE, stderr=subprocess.PIPE)
    if done.returncode == 64:
        print("`make` is skipped: the program has no such command")
        return
    if done.returncode:
        sys.exit(f"make capture {MADE} ended with {done.returncode}: {done.stderr.decode()}")
    made = written("made.capture", done.stdout)
    sizes = [str(struct.unpack("<I", done.stdout[at + 8 : at + 12])[0]) for at in offsets(done.stdout)]
    lengths = ran(["tshark", "-r", made, "-T", "fields", "-e", "frame.len"]).decode().split()
    anew = bytes_of(tool(["tcpdump", "-r", made, "-w", "OUT"], "made.tcpdump"))
    lines = ran(["tcpdump", "-nr", made]).decode().count("\n")
    if len(sizes) != MADE or lengths != sizes or anew != done.stdout or lines != MADE:
        wrong += 1
        print(f"make capture {MADE}: tshark reads {len(lengths)} frames, tcpdump {lines}")

for original in sorted(glob.glob("*.pcap")):
    stem = original[: -len(".pcap")]
    wanted = exec_on(original)
    if wanted[1] or wanted[2]:
        sys.exit(f"{original}: {wanted}")
    for what, path in forms_of(original, stem):
        expect(path, what, wanted)
    for what, path, why in others_of(original, stem):
        expect(path, what, refused(why))
    try_cut(original, stem, wanted[0])
try_made()
if wrong:
    sys.exit(f"{wrong} disagree")
print(f"{tried} captures of other tools ({len(known)} of them different) are read or refused as documented")
PYTHON
