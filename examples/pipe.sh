#!/usr/bin/env bash
# Runs `filter` and `exec` on a capture that comes from a pipe, a frame at a time: the lines of each frame are to come out
# before the next frame goes in. Then all lines are to be those of the same capture as a file.
#
# Runs the program that APF_RUN names, else the one that was built here. Ends with 0 where all is so, and where there is
# no /dev/stdin or no built program, since then nothing is tried. Wants Python 3.
set -eu
top=$(cd "$(dirname "$0")/.." && pwd)
program=${APF_RUN:-$top/crates/apf_run/out/apf_run}
[ -e /dev/stdin ] || { echo "skipped: there is no /dev/stdin here"; exit 0; }
[ -x "$program" ] || { echo "skipped: apf_run isn't built here"; exit 0; }
folder=$(mktemp -d)
trap 'rm -rf "$folder"' EXIT
python3 - "$(realpath -- "$program")" "$top/examples" "$folder" <<'PYTHON'
import os, select, struct, subprocess, sys, time

program, examples, folder = sys.argv[1:]
PATIENCE = 20

def records_of(content):
    """The file header of a little-endian capture, and its records."""
    records, at = [], 24
    while at < len(content):
        end = at + 16 + struct.unpack("<I", content[at + 8 : at + 12])[0]
        records.append(content[at:end])
        at = end
    return content[:24], records

def output_on(words, content):
    """What the command writes where the capture is this file."""
    path = os.path.join(folder, "capture")
    with open(path, "wb") as out:
        out.write(content)
    return subprocess.run([program, *[path if word is None else word for word in words]], stdout=subprocess.PIPE, stderr=subprocess.DEVNULL).stdout

def taken(out, size):
    """So many bytes of the output, or fewer where they don't come in time."""
    got, end = b"", time.monotonic() + PATIENCE
    while len(got) < size and select.select([out], [], [], max(0, end - time.monotonic()))[0]:
        piece = os.read(out, size - len(got))
        if not piece:
            break
        got += piece
    return got

def tried(words, capture):
    """Feeds the capture, and compares the lines behind each frame. A byte behind a frame cuts the file there, so that the
    lines of the whole frames are written and no more."""
    with open(os.path.join(examples, capture), "rb") as it:
        content = it.read()
    head, records = records_of(content)
    child = subprocess.Popen([program, *["/dev/stdin" if word is None else word for word in words]], stdin=subprocess.PIPE, stdout=subprocess.PIPE, bufsize=0)
    out, seen, fed = child.stdout.fileno(), b"", head
    child.stdin.write(head)
    for number, record in enumerate(records, 1):
        fed += record
        child.stdin.write(record)
        due = output_on(words, fed + b"\0")
        seen += taken(out, len(due) - len(seen))
        if seen != due:
            child.kill()
            sys.exit(f"{words[0]}: behind frame {number} there is\n{seen.decode()}in place of\n{due.decode()}")
    child.stdin.close()
    seen += child.stdout.read()
    if child.wait() != 0 or seen != output_on(words, content):
        sys.exit(f"{words[0]}: the lines from the pipe are not those of the file")

tried(["filter", os.path.join(examples, "home.script"), None], "home.pcap")
tried(["exec", os.path.join(examples, "first.apf"), None, "0"], "frames.pcap")
print("lines come out of the pipe as frames come in")
PYTHON
