#!/usr/bin/env python3
"""Records what a real backend tells on its two streams, and compares each message with what the crates read of it.

    bench/trials/messages/record.py [--out FILE] [--read FILE] [--seed S] [--keep]

The Firestore emulator is started on a free port, and a bridge opens a Listen and a Write stream to it (Bridge.java). On them and
by the calls of another client, documents with values of every kind are written, listened to by document targets and by queries,
changed, taken out of answers and deleted; some listens and writes are refused. Each message that comes, and each status with which a
stream ends, is a line of FILE. A small program over the crates (reader/main.txt), interpreted in a copy of them without proof (rt
try), reads each line by `read_listen_response`, `read_write_response` or `read_status` and prints what came out, which must be what
the message says, member by member; a message with what isn't stored must have the fault of docs/FORMATS.md. `--read` compares the
lines of an earlier run. Where the emulator's package (google-cloud-cli-firestore-emulator) or Java isn't there, nothing is done. It
takes some three minutes; the status is 1 where there is a difference or too few messages came.
"""
import argparse
import collections
import json
import os
import shutil
import subprocess
import sys
import tempfile

sys.dont_write_bytecode = True
HERE = os.path.dirname(os.path.abspath(__file__))
sys.path[:0] = [HERE, os.path.dirname(os.path.dirname(HERE))]
from backend import PACKAGE, Backend, find_jar  # noqa: E402
from client import ROOT  # noqa: E402
from compare import compare, kind_of  # noqa: E402
from workload import Workload  # noqa: E402

FEWEST = 200
# an interpreted program may print 1,048,576 bytes, so the lines are read in parts
PART = 400000
LIBRARIES = "document_keys value_model mutations json_model json_messages serde_json json anyhow"


def record(jar, seed):
    """The lines of the messages that came, and of the streams that ended."""
    with tempfile.TemporaryDirectory(prefix="bench-messages-") as folder:
        backend = Backend(jar, folder)
        try:
            Workload(backend, seed).run()
        finally:
            backend.stop()
    return [line for line in backend.lines if line.startswith(('{"watch":', '{"written":', '{"close":'))]


def print_kinds(lines):
    kinds = collections.Counter(kind_of(json.loads(line)) for line in lines)
    print("%d messages:" % len(lines))
    for kind, count in sorted(kinds.items()):
        print("  %-24s %6d" % (kind, count))


def write_parts(folder, lines):
    """Files with the lines, in the order of their names."""
    os.makedirs(folder)
    place, size = 0, 0
    for line in lines:
        content = line.encode("utf-8") + b"\n"
        place, size = (place + 1, len(content)) if size > PART else (place, size + len(content))
        with open(os.path.join(folder, "%04d" % place), "ab") as file:
            file.write(content)


def printed_by_reader(lines, keep):
    """What the reader prints of the lines, one line each."""
    folder = tempfile.mkdtemp(prefix="bench-message-reader-")
    try:
        crates = os.path.join(folder, "crates")
        shutil.copytree(os.path.join(ROOT, "crates"), crates, ignore=shutil.ignore_patterns("out", "must-fail"))
        shutil.copy(os.path.join(ROOT, "HANDLES"), folder)
        shutil.copy(os.path.join(ROOT, "crates.txt"), folder)
        with open(os.path.join(folder, "crates.txt"), "a", encoding="utf-8") as file:
            file.write("message_reader: %s\n" % LIBRARIES)
        source = os.path.join(crates, "message_reader", "src")
        os.makedirs(source)
        shutil.copy(os.path.join(HERE, "reader", "main.txt"), os.path.join(source, "main.rt"))
        parts = os.path.join(folder, "parts")
        write_parts(parts, lines)
        run = subprocess.run(["rt", "try", "--seconds", "600", "--cases", parts], cwd=os.path.dirname(source),
                             stdin=subprocess.DEVNULL, capture_output=True, check=False)
        if run.returncode:
            sys.exit("the reader didn't run:\n" + (run.stdout[-2000:] + run.stderr[-2000:]).decode("utf-8", "replace"))
        return [line for line in run.stdout.decode("utf-8").split("\n") if line.startswith(("{", "null"))]
    finally:
        if not keep:
            shutil.rmtree(folder, ignore_errors=True)


def print_counts(title, counts):
    print("%s: %s" % (title, ", ".join("%s %d" % pair for pair in sorted(counts.items())) or "none"))


def print_comparison(found):
    print("read %d, refused %d, differences %d" % (found.read, sum(found.faults.values()), len(found.differences)))
    print_counts("values read", found.values)
    print_counts("members read over", found.ignored)
    print_counts("refused", found.faults)
    for number, path, recorded, printed in found.differences[:20]:
        print("  line %d, %s: recorded %.200r, read %.200r" % (number, path, recorded, printed))


def main():
    parser = argparse.ArgumentParser(description=__doc__.split("\n")[0])
    parser.add_argument("--out", help="where the lines are left")
    parser.add_argument("--read", metavar="FILE", help="compares these lines, and records nothing")
    parser.add_argument("--seed", type=int, default=1)
    parser.add_argument("--keep", action="store_true", help="leave the folder of the reader")
    words = parser.parse_args()
    if words.read:
        with open(words.read, encoding="utf-8") as file:
            lines = file.read().split("\n")[:-1]
    else:
        jar = find_jar()
        if jar is None:
            print("skipped: the package %s, or Java, isn't there" % PACKAGE)
            return
        lines = record(jar, words.seed)
    print_kinds(lines)
    if words.out:
        with open(words.out, "w", encoding="utf-8", newline="\n") as file:
            file.writelines(line + "\n" for line in lines)
    found = compare(lines, printed_by_reader(lines, words.keep))
    print_comparison(found)
    if found.differences or len(lines) < FEWEST:
        sys.exit(1)


if __name__ == "__main__":
    main()
