"""What the measurements of small and medium documents share: their lines, and runs over files of lines."""
import json
import os
import subprocess
import sys
import tempfile
import time

from client import NAME_FRONT, write_line


def medium_line(path, number):
    """A line that writes a document of 12 fields."""
    def text(size):
        return {"stringValue": ("%d, some words of a text " % number * 9)[:size]}
    fields = {
        "active": {"booleanValue": number % 2 == 0}, "address": text(70), "city": text(30), "count": {"integerValue": str(number)},
        "created": {"timestampValue": "2024-05-01T00:00:01Z"}, "email": text(30), "name": text(40), "note": text(148),
        "owner": {"referenceValue": NAME_FRONT + "users/u%d" % number}, "score": {"integerValue": str(number * number)}, "state": text(12),
        "tags": {"arrayValue": {"values": [text(12), text(16)]}},
    }
    line = {"write": {"at": "2024-05-01T00:00:01Z", "writes": [{"update": {"name": NAME_FRONT + path, "fields": fields}}]}}
    return json.dumps(line, separators=(",", ":")).encode() + b"\n"


LINES = {"small": write_line, "medium": medium_line}


def lines_of(kind, count):
    return [LINES[kind]("rooms/d%d" % number, number) for number in range(1, count + 1)]


def document_bytes(line):
    """The bytes of what is under `update`."""
    return len(json.dumps(json.loads(line)["write"]["writes"][0]["update"], separators=(",", ":")))


def last_ok(count):
    return b'{"ok":{"batch":%d,"commit":%d}}\n' % (count, count)


def put_lines(folder, lines):
    """A file of these lines."""
    path = os.path.join(folder, "lines")
    with open(path, "wb") as file:
        file.write(b"".join(lines))
    return path


def run_file(program, store, lines, count=0):
    """The seconds of a run over the lines of a file, from its start to its end; it prints to a file. Of so many writes each is taken."""
    with open(lines, "rb") as source, tempfile.TemporaryFile(dir=os.path.dirname(lines)) as out:
        started = time.monotonic()
        subprocess.run([program, "run", store], stdin=source, stdout=out, stderr=subprocess.DEVNULL, check=True)
        seconds = time.monotonic() - started
        wanted = last_ok(count) if count else b""
        out.seek(-len(wanted), os.SEEK_END)
        last = out.read()
    if last != wanted:
        sys.exit("the last answer is %r" % last)
    return seconds
