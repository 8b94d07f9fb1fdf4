#!/usr/bin/env python3
"""Feeds the program damaged lines and damaged journal files.

    bench/trials/fuzz_lines.py [--program P] [--runs N] [--lines N] [--journals N] [--minutes M] [--seed S]

Lines are built from those of the examples: members left out, doubled, renamed or of another type, values nested deeper,
bytes broken, lines too long, random bytes; among them are whole messages of the stream of listeners. Behind each stands a get of a
document of its own, by which it is known what was printed for the line. Each run of N lines must end with status 0 and have at most one
answer of JSON for each line: `ok`, `result` or `rejected` with the numbers that are due, `document`, or a refusal of a known number with
the line's own number; or an `error` for each of some listeners, ascending. Behind it come the snapshots of listeners that are there,
ascending, each with something new, the changes that lead to it, and a read time that doesn't fall; then requests in their order, for
targets that are known, and with no more than ten batches outstanding. A line of the streams alone may have no answer, and make a commit
that isn't told at once; the journal must in the end have as many records as were told, and no more than there were such lines besides.
Behind each run come N pairs of damaged journal files, at which the status must be 0, 4 or 7. With --minutes the runs go on for that long.
"""
import argparse
import json
import os
import random
import shutil
import subprocess
import sys
import tempfile
import time

sys.dont_write_bytecode = True
sys.path.insert(0, os.path.dirname(os.path.dirname(os.path.abspath(__file__))))
from client import NAME_FRONT, ROOT, find_program, get_line, memory_folder, run_lines  # noqa: E402
from readers.journal_reader import get_files, put_files, random_pair, read_pair  # noqa: E402
from trials.printed_lines import LONGEST, Told, fault_of, groups_of, items_of, mark_line, what_is  # noqa: E402


class Members(list):
    """An object of JSON, as the pairs that are written, so that a name may stand twice."""


def load(text):
    return json.loads(text, object_pairs_hook=Members)


def spell(tree):
    if isinstance(tree, Members):
        return "{" + ",".join(json.dumps(name) + ":" + spell(value) for name, value in tree) + "}"
    if isinstance(tree, list):
        return "[" + ",".join(map(spell, tree)) + "]"
    return json.dumps(tree, ensure_ascii=False)


def sample_lines():
    """The lines of the examples and of the sample, as trees."""
    folder = os.path.join(ROOT, "examples")
    trees = []
    for name in sorted(os.listdir(folder)):
        with open(os.path.join(folder, name), encoding="utf-8") as file:
            for line in file:
                text = line[3:] if line.startswith("in ") else line if name == "sample.lines" else ""
                try:
                    trees.append(load(text))
                except ValueError:
                    pass
    return trees


def stream_line(chance):
    """A line of the stream of listeners, without damage, so that listeners are in step now and then."""
    ids, name, at = chance.choice([[], [], [2], [4, 6]]), NAME_FRONT + "rooms/" + chance.choice("abc"), "2024-05-01T00:00:0%dZ" % chance.choice([7, 8, 9, 9])
    change = {"targetIds": ids, "resumeToken": chance.choice(["", "AQ=="])}
    gone = {"document": name, "removedTargetIds": [2, 4], "readTime": at}
    messages = [{"targetChange": {"readTime": at}}, {"targetChange": {**change, "targetChangeType": "CURRENT"}}, {"targetChange": {**change, "targetChangeType": "ADD"}},
                {"targetChange": {"targetIds": [2], "targetChangeType": "REMOVE", "cause": {"code": 7}}}, {"targetChange": {**change, "targetChangeType": "RESET"}},
                {"documentChange": {"document": {"name": name, "fields": {"n": {"integerValue": "1"}}, "updateTime": at}, "targetIds": [2, 4, 6]}},
                {"documentDelete": gone}, {"documentRemove": gone}, {"filter": {"targetId": 2, "count": chance.randrange(3)}}]
    message = {"watch": chance.choices(messages, [4, 4, 4, 1, 1, 3, 1, 1, 1])[0]}
    return chance.choice([{"open": {"stream": "watch"}}, message, message, message, message])


# ---- damage of trees ----------------------------------------------------------------------------------------------

def places(tree):
    """The objects and lists in it, from the outermost in."""
    found, ahead = [], [tree]
    while ahead:
        node = ahead.pop()
        if isinstance(node, list):
            found.append(node)
            ahead.extend(value for _, value in node) if isinstance(node, Members) else ahead.extend(node)
    return found


def odd_value(chance):
    numbers = ["0", "-0", "00", "1", "-1", "9223372036854775807", "9223372036854775808", "-9223372036854775808",
               "-9223372036854775809", "1e3", "1.0", "+1", " 1", "", "\u0661", "9" * 50]
    times = ["2024-02-29T23:59:59Z", "2023-02-29T00:00:00Z", "0000-01-01T00:00:00Z", "0001-01-01T00:00:00Z",
             "9999-12-31T23:59:59Z", "2024-05-01T24:00:00Z", "2024-05-01T00:00:60Z", "2024-05-01T00:00:01.5Z",
             "2024-05-01t00:00:01z", "2024-05-01T00:00:01+00:00", "\uff12024-05-01T00:00:01Z"]
    front = "projects/demo/databases/(default)/documents"
    names = [front + "/rooms/a", front + "/rooms", front + "/rooms/", front + "//a", front + "/rooms/a/b/c", front,
             front + "/rooms/__a__", front + "/rooms/..", front + "/rooms/" + "x" * 20, front + "/rooms/" + "x" * 21,
             front + "/rooms/\u00e9", front.replace("demo", "other") + "/rooms/a", front + "/r%20/a"]
    words = ["AND", "OR", "EQUAL", "NOT_EQUAL", "LESS_THAN", "GREATER_THAN_OR_EQUAL", "IN", "NOT_IN", "ARRAY_CONTAINS", "ARRAY_CONTAINS_ANY", "IS_NULL",
             "IS_NOT_NULL", "IS_NAN", "DESCENDING", "DIRECTION_UNSPECIFIED", "__name__", "write", "watch", "online", 16, 17, 7, 2, 3, 2**31 - 1, 2**31, 2**32 - 1, 2**32]
    leaf = Members([(chance.choice(["integerValue", "doubleValue", "bytesValue", "referenceValue", "timestampValue"]),
                     chance.choice(numbers + times + names + ["+w==", "-w", "+x", "AA=", "A"]))])
    for _ in range(chance.choice([0, 1, 2, 19, 20, 21])):
        leaf = Members([("arrayValue", Members([("values", [leaf])]))]) if chance.random() < 0.5 else \
            Members([("mapValue", Members([("fields", Members([(odd_name(chance), leaf)]))]))])
    other = [leaf, Members([("arrayValue", Members())]), Members([("mapValue", Members())]), "NULL_VALUE", None, True, False, 0, 1, -1, 1.5, 1e308, 10**30, [], Members(), [[]], Members([("integerValue", "1")]),
             Members([("integerValue", 1)]), Members([("stringValue", "x")]), Members([("nullValue", None)]),
             "\u0000", "\ud7ff", "\U0001f600", "x" * 2000]
    return chance.choice(chance.choice([numbers, times, names, words, other]))


def odd_name(chance):
    return chance.choice(["", "a", "n", "name", "fields", "write", "writes", "get", "at", "update", "delete", "listen", "unlisten", "id", "target",
                          "documents", "query", "parent", "structuredQuery", "from", "collectionId", "allDescendants", "where", "compositeFilter",
                          "fieldFilter", "unaryFilter", "filters", "op", "field", "value", "orderBy", "direction", "startAt", "endAt", "before", "limit",
                          "select", "offset", "findNearest", "updateMask", "fieldPaths", "updateTransforms", "fieldPath", "increment", "maximum", "appendMissingElements", "removeAllFromArray",
                          "setToServerValue", "currentDocument", "exists", "updateTime", "transform", "integerValue", "stringValue", "bytesValue", "arrayValue", "mapValue",
                          "values", "__type__", "open", "close", "stream", "status", "code", "message", "written", "streamToken", "writeResults",
                          "transformResults", "commitTime", "streamId", "watch", "timer", "doubleValue", "nullValue", "null", "__a__", "\u00e9", "x" * 20, "x" * 21, "1a", "a b", "\u0000"])


def damage(chance, tree):
    """The tree with one thing changed in it, somewhere."""
    node = chance.choice(places(tree) or [None])
    if not node:
        return odd_value(chance)
    at, kind = chance.randrange(len(node)), chance.randrange(7)
    entry = node[at]
    if kind == 0:
        del node[at]
    elif kind == 1:
        node.insert(chance.randint(0, len(node)), entry)
    elif kind == 2:
        chance.shuffle(node)
    elif isinstance(node, Members):
        name, value = entry
        node[at] = [(odd_name(chance), value), (name, odd_value(chance)), (name, [value]),
                    (name, Members([(odd_name(chance), value)]))][kind - 3]
        if chance.random() < 0.2:
            node.append((chance.choice([name, odd_name(chance)]), odd_value(chance)))
    else:
        node[at] = [odd_value(chance), [entry], Members([(odd_name(chance), entry)]), odd_value(chance)][kind - 3]
    return tree


# ---- damage of texts ----------------------------------------------------------------------------------------------

def break_bytes(chance, line):
    broken = bytearray(line)
    for _ in range(chance.randint(1, 4)):
        at = chance.randint(0, len(broken))
        byte = chance.choice([0, 9, 13, 34, 44, 58, 91, 92, 93, 123, 125, 128, 192, 237, 255, chance.randrange(256)])
        kind = chance.randrange(4)
        if kind == 0:
            broken.insert(at, byte)
        elif kind == 1:
            del broken[at:at + chance.randint(1, 3)]
        elif kind == 2 and at < len(broken):
            broken[at] = byte
        else:
            broken[at:at] = broken[at:at + chance.randint(1, 20)]
    return bytes(broken)


def nest(chance, line):
    depth = chance.choice([2, 20, 126, 127, 128, 129, 200, 5000])
    if chance.random() < 0.5:
        return b"[" * depth + line + b"]" * chance.choice([depth, depth, depth - 1, 0])
    return b'{"get":' * depth + line + b"}" * depth


def escape(chance, line):
    """The line with some letters written as escapes, which mean the same inside a text, and some that mean none."""
    text = line.decode("utf-8", "replace")
    at = chance.randrange(len(text) + 1)
    put = chance.choice(["\\u0061", "\\ud83d\\ude00", "\\ud83d", "\\u12", "\\x", "\\n", "\\u0000", "\\/"])
    return (text[:at] + put + text[at + 1:]).encode("utf-8")


def pad(chance, line):
    length = chance.choice([1000, 65535, 65536, 65537, 1 << 20]) if chance.random() < 0.9 else chance.choice([LONGEST - 1, LONGEST, LONGEST + 1, LONGEST + 70000])
    filler = chance.choice([b" ", b" ", b"x", b"["])
    return line + filler * (length - len(line))


def noise(chance):
    return bytes(chance.randrange(256) for _ in range(chance.randint(0, 80)))


def random_line(chance, trees):
    tree = load(spell(chance.choice(trees)))
    for _ in range(chance.choice([0, 1, 1, 1, 2, 4])):
        tree = damage(chance, tree)
    line = spell(tree).encode("utf-8", "replace")
    kind = chance.random()
    if kind < 0.12:
        line = break_bytes(chance, line)
    elif kind < 0.17:
        line = escape(chance, line)
    elif kind < 0.21:
        line = nest(chance, line)
    elif kind < 0.22:
        line = pad(chance, line)
    elif kind < 0.27:
        line = noise(chance)
    return line


# ---- runs -----------------------------------------------------------------------------------------------------------

def try_lines(program, store, text, counts):
    """Feeds one run; says what is wrong, or None."""
    given = items_of(text)
    marked = [piece for number, line in enumerate(given) for piece in (line, b"\n", mark_line(number))][:-1 if text.endswith(b"\n") else -2]
    try:
        status, output = run_lines(program, store, marked, seconds=120)
    except subprocess.TimeoutExpired:
        return "no end within 120 seconds"
    groups, told = groups_of(output), Told()
    for number, (line, group) in enumerate(zip(given, groups)):
        wrong = fault_of(2 * number + 1, line, group, told)
        if wrong:
            return "line %d, %r: %r is printed: %s" % (number + 1, line[:300], [printed[:300] for printed in group], wrong)
        for what in map(what_is, group):
            counts[what] = counts.get(what, 0) + 1
    if status != 0 or len(groups) != len(given):
        where = given[len(groups)][:300] if len(groups) < len(given) else b""
        return "status %d, and answers to %d of %d lines; the next line is %r" % (status, len(groups), len(given), where)
    found = read_pair(get_files(store))
    if found[0] != "counts" or not told.least <= len(found[3]) <= told.most:
        return "%d to %d commits were told, and the journal is %s" % (told.least, told.most, found[:3])
    return None


def try_files(program, store, contents, counts):
    put_files(store, contents)
    try:
        status, _ = run_lines(program, store, [get_line("rooms/a")], seconds=60)
    except subprocess.TimeoutExpired:
        return "no end within 60 seconds"
    counts["status %d" % status] = counts.get("status %d" % status, 0) + 1
    return None if status in (0, 4, 7) else "status %d" % status


def keep(what, content):
    path = os.path.join(tempfile.mkdtemp(prefix="fuzz-"), what)
    with open(path, "wb") as file:
        file.write(content)
    return path


def one_round(program, folder, chance, trees, words, counts):
    """One run of lines and some pairs of files; says what is wrong, or None."""
    store = os.path.join(folder, "lines")
    shutil.rmtree(store, ignore_errors=True)
    lines = [spell(stream_line(chance)).encode() if chance.random() < 0.15 else random_line(chance, trees) for _ in range(words.lines)]
    text = b"\n".join(lines) + chance.choice([b"", b"\n"])
    wrong = try_lines(program, store, text, counts)
    if wrong:
        return "%s; the input is kept as %s" % (wrong, keep("lines", text))
    counts["lines"] = counts.get("lines", 0) + len(items_of(text))
    store = os.path.join(folder, "files")
    os.makedirs(store, exist_ok=True)
    for _ in range(words.journals):
        contents = random_pair(chance) if chance.random() < 0.8 else (noise(chance), noise(chance))
        wrong = try_files(program, store, contents, counts)
        if wrong:
            return "%s; the files are %s and %s" % (wrong, contents[0].hex(), contents[1].hex())
        counts["pairs of files"] = counts.get("pairs of files", 0) + 1
    return None


def main():
    parser = argparse.ArgumentParser(description=__doc__.split("\n")[0])
    parser.add_argument("--program")
    parser.add_argument("--runs", type=int, default=20)
    parser.add_argument("--lines", type=int, default=3000)
    parser.add_argument("--journals", type=int, default=100)
    parser.add_argument("--minutes", type=float, default=0)
    parser.add_argument("--seed", type=int, default=1)
    words = parser.parse_args()
    program, chance, trees, counts = find_program(words.program), random.Random(words.seed), sample_lines(), {}
    ends, number, wrong = time.monotonic() + 60 * words.minutes, 0, None
    with tempfile.TemporaryDirectory(prefix="fuzz-lines-", dir=memory_folder()) as folder:
        while not wrong and (time.monotonic() < ends if words.minutes else number < words.runs):
            number += 1
            wrong = one_round(program, folder, chance, trees, words, counts)
    if wrong:
        print("run %d of seed %d: %s" % (number, words.seed, wrong))
    for what in sorted(counts):
        print("%9d  %s" % (counts[what], what))
    print("%d inputs tried in %d runs, seed %d: %s" % (
        counts.get("lines", 0) + counts.get("pairs of files", 0), number, words.seed, "FAILED" if wrong else "no fault"))
    return 1 if wrong else 0


if __name__ == "__main__":
    sys.exit(main())
