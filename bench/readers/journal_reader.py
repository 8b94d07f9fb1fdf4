#!/usr/bin/env python3
"""Reads and writes journal files, from the description in docs/FORMATS.md alone.

    journal_reader.py read FILE0 FILE1            says what the two files give (a missing file has no bytes)
    journal_reader.py commits [--commits N] [--seed S]
                                                  N random commits of all kinds, many damaged, in hex, and what each is read as
    journal_reader.py compare [--program P] [--pairs N] [--seed S]
                                                  N random pairs of damaged files: does the program say the same?

It shares nothing with the program: it is another reader of the same description, so that a mistake in one of them shows. Where the
files are a store, the program must show its documents, and begin a listener on each of its targets, which shows what is due. How
commits are spelled is commits.py's, what they make of a store is store.py's, what writes make of documents effects.py's, and what
a target answers queries.py's.
"""
import argparse
import json
import os
import random
import struct
import sys
import tempfile

sys.dont_write_bytecode = True
sys.path.insert(0, os.path.dirname(os.path.dirname(os.path.abspath(__file__))))
from client import NAME_FRONT, find_program, get_line, memory_folder, run_lines  # noqa: E402
from readers.commits import (DOCUMENT_NAME, FIRST_SECOND, KINDS, LAST_SECOND, NoCommit, read_commit, spell_delete,  # noqa: E402
                             spell_enqueue, spell_entry, spell_ids, spell_keys, spell_list, spell_path, spell_query, spell_result, spell_row, spell_update)
from readers.queries import changes_between, read_target  # noqa: E402
from readers.store import ARRAYS, Store, Unfit, transforms_of  # noqa: E402

MAGIC = b"FSJRNL1"
OPEN = 1
HEADER = 16


class Foreign(Exception):
    """The file is neither blank nor a journal file."""


# ---- the files ----------------------------------------------------------------------------------------------------

def is_blank(content):
    return len(content) < HEADER or content[0] != OPEN


def records(content):
    """The payloads, and the place of the first closed gate."""
    payloads, at = [], HEADER
    while True:
        if at >= len(content):
            raise Foreign
        if content[at] != OPEN:
            return payloads, at
        front = content[at + 1:at + 9]
        if len(front) < 8:
            raise Foreign
        length = int.from_bytes(front, "big")
        if length > len(content) - (at + 9):
            raise Foreign
        payloads.append(content[at + 9:at + 9 + length])
        at += 9 + length


def read_file(content):
    """None where it is blank; else its generation, its payloads and the place of its first closed gate."""
    if is_blank(content):
        return None
    generation = int.from_bytes(content[8:16], "big")
    if content[1:8] != MAGIC or generation == 0:
        raise Foreign
    return (generation, *records(content))


def read_pair(contents):
    """What the two files give: ("foreign", file), ("blank",), or ("counts", file, generation, payloads, end)."""
    read = []
    for number, content in enumerate(contents):
        try:
            read.append(read_file(content))
        except Foreign:
            return ("foreign", number)
    zero, one = read
    if zero is None and one is None:
        return ("blank",)
    counting = 0 if one is None or zero is not None and zero[0] >= one[0] else 1
    return ("counts", counting, *read[counting])


def formatted(content):
    """A blank first file, once a store was made of it. What stood behind its 17 bytes is left."""
    fresh = bytes([OPEN]) + MAGIC + (1).to_bytes(8, "big") + b"\0"
    return fresh + content[len(fresh):]


def appended(content, payload):
    """A journal file with one record more."""
    _, _, end = read_file(content)
    piece = len(payload).to_bytes(8, "big") + payload + b"\0"
    return content[:end] + bytes([OPEN]) + piece + content[end + 1 + len(piece):]


def read_store(contents):
    """The store that the two files are; None where they are none."""
    found = read_pair(contents)
    if found[0] == "foreign":
        return None
    store = Store()
    if found[0] == "counts":
        _, _, generation, payloads, _ = found
        if generation != 1:
            return None
        for payload in payloads:
            try:
                store.commit(*read_commit(payload))
            except (NoCommit, Unfit):
                return None
    return store


# ---- random damage ------------------------------------------------------------------------------------------------

NAMES = [b"a", b"b", b"kitchen", b"r2"]


def nested(depth):
    """An array in an array and so on, so deep."""
    value = (8, [])
    for _ in range(depth - 1):
        value = (8, [value])
    return value


def random_value(chance, deepest):
    kind = chance.choice([0, 1, 2, 2, 3, 5, 6, 7] + [8, 9] * (deepest > 0) * 2)
    content = {
        0: lambda: None,
        1: lambda: chance.randrange(2),
        2: lambda: chance.choice([0, 1, -1, 2**63 - 1, -2**63, chance.randint(-999, 999)]),
        3: lambda: (chance.choice([0, FIRST_SECOND, LAST_SECOND, 1714521600, -1]), chance.choice([0, 1, 1000, 500_000_000, 999_999_999])),
        5: lambda: chance.choice(["", "x", "\u00e9", "\U0001f600", "a\"b\\\n"]).encode(),
        6: lambda: bytes(chance.randrange(256) for _ in range(chance.randint(0, 5))),
        7: lambda: (b"p", b"(default)", [b"rooms", chance.choice(NAMES)]),
        8: lambda: [random_value(chance, deepest - 1) for _ in range(chance.randint(0, 3))],
        9: lambda: [(name, random_value(chance, deepest - 1)) for name in sorted(chance.sample([b"a", b"b", b"c"], chance.randint(0, 3)))],
    }[kind]()
    return kind, content


PATHS = [[b"m"], [b"n"], [b"m", b"a"], [b"m", b"a", b"b"], [b"a b", b"`"], [b"size"]]


def random_transform(chance):
    kind = chance.randint(1, 6)
    operand = None if kind == 1 else chance.choice([0, 1, -1, 2**63 - 1, -2**63]) if kind < 5 else [random_value(chance, 1) for _ in range(chance.randint(0, 3))]
    return chance.choice(PATHS), kind, operand


def random_write(chance):
    key = [b"rooms", chance.choice(NAMES)]
    condition = chance.choice([None] * 6 + [0, 1, (1714521600, 0)])
    if chance.random() < 0.15:
        return spell_delete(key, condition)
    names = sorted(chance.sample([b"m", b"n", b"size", b"x1"], chance.randint(0, 3)))
    fields = [(name, random_value(chance, chance.choice([0, 0, 1, 3]))) for name in names]
    mask = None if chance.random() < 0.5 else [chance.choice(PATHS) for _ in range(chance.randint(0, 3))]
    return spell_update(key, fields, mask, [random_transform(chance) for _ in range(chance.choice([0, 0, 0, 1, 2]))], condition)


TIMES = [(0, 0), (1714521600, 0), (FIRST_SECOND, 0), (LAST_SECOND, 999_999_999)]


def some(chance, items, sound):
    """Some of the items, ascending; unless they are to be sound, sometimes with one twice or in another order."""
    found = sorted(chance.sample(items, chance.randint(0, len(items))))
    if not sound and found and chance.random() < 0.1:
        found.insert(chance.randint(0, len(found)), chance.choice(found))
    return found


def random_path(chance):
    return chance.choice(PATHS + [DOCUMENT_NAME])


def random_filter(chance, deepest):
    kind = chance.choice([1, 2, 2, 3] if deepest > 1 else [2, 2, 3])
    if kind == 1:
        return 1, chance.randint(1, 2), [random_filter(chance, deepest - 1) for _ in range(chance.choice([1, 1, 2, 3, 0]))]
    if kind == 3:
        return 3, chance.randint(1, 2), random_path(chance)
    op = chance.randint(1, 10)
    if op in (7, 8, 10) and chance.random() < 0.9:
        return 2, random_path(chance), op, (8, [(2, n) for n in range(chance.choice([1, 2, 10, 11, 30, 31, 0]))])
    return 2, random_path(chance), op, random_value(chance, 1)


def paths_compared(found):
    """The paths that a filter makes orders of."""
    if found is None:
        return []
    if found[0] == 1:
        return [path for each in found[2] for path in paths_compared(each)]
    return [found[1]] if found[0] == 2 and found[2] in (2, 3, 4, 5, 6, 8) else [found[2]] if found[0] == 3 and found[1] == 2 else []


def random_query(chance, sound):
    """A query with its whole list of orders, mostly; one that is to be sound has no filter that may break a rule."""
    where = chance.choice([None, None, (2, [b"n"], chance.randint(1, 6), (2, 1)), (3, 2, [b"m", b"a"])] if sound else [None, random_filter(chance, 3)])
    explicit = [(path, chance.randint(1, 2)) for path in chance.sample(PATHS + [DOCUMENT_NAME], chance.choice([0, 0, 1, 2]))]
    named = [path for path, _ in explicit]
    compared = {tuple(path) for path in paths_compared(where) if path not in named and path != DOCUMENT_NAME}
    behind = sorted(compared) + [tuple(DOCUMENT_NAME)] * (DOCUMENT_NAME not in named)
    orders = explicit + [(list(path), explicit[-1][1] if explicit else 1) for path in behind]
    if not sound and chance.random() < 0.1:
        orders.pop(chance.randrange(len(orders)))
    cursors = [chance.choice([None, None, None, ([random_value(chance, 1) for _ in range(chance.randint(1, len(orders) if sound else 3))], chance.randrange(2))]) for _ in range(2)]
    limit = chance.choice([None, 1, 10, 2**31 - 1] + [0, 2**31] * (not sound))
    return spell_query(chance.choice([[b"rooms"]] * 3 + [[b"rooms", b"a", b"s"]] + [[], [b"r", b"a"]] * (not sound)), where, orders, *cursors, limit)


def random_members(chance, kind, sound):
    ids, keys, at = [1, 2, 3, 2**32 - 1], [[b"rooms", name] for name in NAMES], struct.pack(">qI", *chance.choice(TIMES))
    batch = chance.choice([1, 2, 2**64 - 1]).to_bytes(8, "big")
    if kind == "Enqueue":
        return batch + at + spell_list([random_write(chance) for _ in range(chance.randint(0, 2))])
    if kind == "Acknowledge":
        results = [spell_result(chance.choice([None] + TIMES), [random_value(chance, 2) for _ in range(chance.randint(0, 2))]) for _ in range(chance.randint(0, 3))]
        return batch + at + spell_list(results)
    if kind == "Reject":
        return batch
    if kind == "Allocate":
        target = b"\1" + spell_path(chance.choice(keys)) if chance.random() < 0.2 else random_query(chance, sound)
        return chance.choice(ids).to_bytes(4, "big") + target
    if kind == "Point":
        fields = [None, [], [(b"m", random_value(chance, 2)), (b"n", (2, 1))]]
        return (at + spell_list([spell_entry(key, chance.choice(fields), chance.choice(TIMES)) for key in some(chance, keys, sound)])
                + spell_list([spell_row(number, chance.choice([b"", b"\xff\0"]), some(chance, keys, sound)) for number in some(chance, ids, sound)]))
    return (b"" if kind == "Reset" else spell_keys(some(chance, keys, sound))) + spell_ids(some(chance, ids, sound))


def random_commit(chance, sound=False):
    """The bytes of a commit of any kind. Unless they are to be sound they are sometimes none's, though every length in them is right."""
    number = chance.randint(1, len(KINDS))
    return bytes([1, number]) + random_members(chance, KINDS[number - 1], sound)


def fitting_result(chance, write):
    """A result of the write, mostly: the value of a transform that isn't one of an array is a scalar."""
    values = [random_value(chance, 1 if any(change.get(name) is not None for name in ARRAYS) or chance.random() < 0.02 else 0) for change in transforms_of(write)]
    return spell_result(chance.choice([None] + TIMES), values)


def fitting_members(chance, kind, store):
    """The members of a commit that mostly fits the store."""
    keys, at = [[b"rooms", name] for name in NAMES], struct.pack(">qI", *chance.choice(TIMES))
    first = store.pending[0][0] if store.pending else 1
    ids = [2 * place + 2 for place in range(len(store.rows))]
    if kind == "Enqueue":
        return store.next_batch.to_bytes(8, "big") + at + spell_list([random_write(chance) for _ in range(chance.choice([1, 1, 1, 2, 3]))])
    if kind == "Acknowledge":
        return first.to_bytes(8, "big") + at + spell_list([fitting_result(chance, write) for write in (store.pending[0][2] if store.pending else [])])
    if kind == "Reject":
        return first.to_bytes(8, "big")
    if kind == "Allocate":
        return (len(ids) * 2 + 2).to_bytes(4, "big") + (b"\1" + spell_path(chance.choice(keys)) if chance.random() < 0.5 else random_query(chance, True))
    if kind == "Point":
        fields = [None, [], [(b"m", random_value(chance, 2)), (b"n", (2, 1))]]
        return (at + spell_list([spell_entry(key, chance.choice(fields), chance.choice(TIMES)) for key in some(chance, keys, True)])
                + spell_list([spell_row(number, b"\xff\0", some(chance, keys, True)) for number in some(chance, ids, True)]))
    return (b"" if kind == "Reset" else spell_keys(some(chance, keys, True))) + spell_ids(some(chance, ids, True))


def random_store(chance):
    """The first file of a store of a few commits; seldom one that doesn't fit is among them."""
    content, store = formatted(b""), Store()
    for _ in range(chance.choice([0, 0, 1, 1, 2, 3, 5, 9])):
        kind = chance.choice(["Enqueue"] * 5 + ["Allocate", "Point"] + KINDS)
        payload = bytes([1, KINDS.index(kind) + 1]) + fitting_members(chance, kind, store)
        try:
            store.commit(*read_commit(payload))
        except Unfit:
            if chance.random() < 0.95:
                continue
        content = appended(content, payload)
    return content


def noise(chance, most):
    return bytes(chance.choice([0, 1, 255, chance.randrange(256)]) for _ in range(chance.randint(0, most)))


def torn_append(chance, content):
    """A crash inside an append: any bytes may stand in what was being written, at any length between."""
    found = read_pair((content, b""))
    if found[0] != "counts":
        return content
    end = found[4]
    piece = bytearray(appended(content, spell_enqueue(len(found[3]) + 1, 1714521600, 0, [spell_update([b"rooms", b"a"], [(b"n", (2, 7))])])))
    if chance.random() < 0.5:
        piece[end] = chance.choice([0, 2, 255, 1])
        return bytes(piece)
    piece[end] = content[end]
    for at in range(end + 1, len(piece)):
        if chance.random() < 0.3:
            piece[at] = chance.randrange(256)
    return bytes(piece[:chance.randint(len(content), len(piece))])


def cut(chance, content):
    return content[:chance.randint(0, len(content))]


def change_byte(chance, content):
    if not content:
        return content
    at = chance.randrange(len(content))
    return content[:at] + bytes([chance.choice([0, 1, 2, 255, chance.randrange(256)])]) + content[at + 1:]


def change_range(chance, content):
    at = chance.randint(0, len(content))
    piece = noise(chance, 20)
    return content[:at] + piece + content[at + len(piece):]


def grow(chance, content):
    return content + noise(chance, 40)


def change_generation(chance, content):
    generation = chance.choice([0, 1, 2, 3, 2**63, 2**64 - 1])
    return content[:8] + generation.to_bytes(8, "big") + content[16:]


def change_length(chance, content):
    if len(content) < HEADER + 9:
        return content
    length = chance.choice([0, 1, 97, 98, 96, 2**32, 2**63 - 1, 2**64 - 1, chance.randint(0, 300)])
    return content[:HEADER + 1] + length.to_bytes(8, "big") + content[HEADER + 9:]


KEYS = [[b"rooms", b"a"], [b"rooms"], [], [b"r", b"a", b"s", b"b"], [b"rooms", b"__x__"], [b"rooms", b".."], [b"a/b", b"c"], [b"rooms", b"\xff"]]
FIELDS = [[], [(b"n", (2, 1))], [(b"n", (2, 1)), (b"m", (2, 2))], [(b"n", (2, 1)), (b"n", (2, 2))], [(b"__n__", (2, 1))], [(b"", (2, 1))],
          [(b"m", (0, None)), (b"n", (3, (LAST_SECOND + 1, 0)))], [(b"n", nested(20))], [(b"n", nested(21))], [(b"n", (5, b"\xff"))], [(b"n", (1, 2))],
          [(b"n", (7, (b"p", b"a/b", [b"c", b"d"])))], [(b"n", (9, [(b"b", (0, None)), (b"a", (0, None))]))], [(b"n", (4, (0, 0)))]]
ODD_PATHS = PATHS + [[], [b""], [b"__name__"], [b"a", b"__b__"], [b"a"] * 20, [b"a"] * 21, [b"a"] * 22, [b"x" * 1500], [b"x" * 1501], [b"\xff"]]


def odd_write(chance):
    """A write that is often none."""
    key, condition = chance.choice(KEYS[:1] * 9 + KEYS), chance.choice([None] * 9 + [0, 1, 2, (LAST_SECOND + 1, 0), (0, 1_000_000_000)])
    if chance.random() < 0.2:
        return bytes([chance.choice([2, 2, 0, 3])]) + spell_delete(key, condition)[1:]
    mask = chance.choice([None, [], [chance.choice(ODD_PATHS)], [chance.choice(PATHS)] * 2])
    transforms = [(chance.choice(ODD_PATHS), *chance.choice([(1, None), (2, 5), (5, [nested(18)]), (6, [nested(19)]), (5, [nested(20)]), (0, None), (7, [])]))
                  for _ in range(chance.choice([0, 0, 1]))]
    return spell_update(key, chance.choice(FIELDS), mask, transforms, condition)


def add_payload(chance, content):
    """A record in the grammar whose payload is often no commit, or not the next one."""
    try:
        writes = [odd_write(chance) for _ in range(chance.choice([1] * 9 + [2, 0]))] if chance.random() < 0.98 else [spell_delete([b"rooms", b"a"])] * chance.choice([500, 501])
        payload = spell_enqueue(chance.choice([1, 2, 3, 2**64 - 1]), chance.choice([0, 0, 0, FIRST_SECOND, FIRST_SECOND - 1, LAST_SECOND, LAST_SECOND + 1]),
                                chance.choice([0, 0, 999_999_999, 1_000_000_000]), writes)
        if chance.random() < 0.3:
            payload = chance.choice([change_byte, cut, grow])(chance, payload)
        return appended(content, payload)
    except (Foreign, TypeError):
        return content


def add_commit(chance, content):
    """A record of a commit of any kind, or nearly one. Few of them fit."""
    try:
        return appended(content, random_commit(chance))
    except (Foreign, TypeError):
        return content


def closed_header(chance, content):
    return bytes([chance.choice([0, 2, 255])]) + content[1:]


DAMAGES = [cut, change_byte, change_range, grow, change_generation, change_length, add_payload, add_commit, closed_header,
           torn_append, torn_append]


def damaged(chance):
    content = random_store(chance)
    for _ in range(chance.choice([0, 1, 1, 1, 2, 3])):
        content = chance.choice(DAMAGES)(chance, content)
    return content


def random_pair(chance):
    kind = chance.random()
    if kind < 0.6:
        return damaged(chance), b""
    if kind < 0.7:
        return chance.choice([b"", noise(chance, 30), closed_header(chance, damaged(chance))]), damaged(chance)
    if kind < 0.75:
        return noise(chance, 60), noise(chance, 60)
    return damaged(chance), damaged(chance)


# ---- the comparison -----------------------------------------------------------------------------------------------

def printed(store, path):
    return {**store.shown(path), "name": NAME_FRONT + path}


def wanted_answers(store):
    return [{"document": printed(store, "rooms/" + name.decode())} for name in NAMES]


def filter_tree(found):
    """A filter as it stands in a line."""
    if "filters" in found:
        return {"compositeFilter": {"op": found["op"], "filters": list(map(filter_tree, found["filters"]))}}
    return {"fieldFilter" if "value" in found else "unaryFilter": {**found, "field": {"fieldPath": found["field"]}}}


def target_tree(target):
    """A target as it stands in a line."""
    if "document" in target:
        return {"documents": {"documents": [NAME_FRONT + target["document"]]}}
    parent, _, collection = ("/" + target["from"]).rpartition("/")
    orders = [{**order, "field": {"fieldPath": order["field"]}} for order in target["orderBy"]]
    query = {**target, "from": [{"collectionId": collection}], "where": target["where"] and filter_tree(target["where"]), "orderBy": orders}
    return {"query": {"parent": NAME_FRONT[:-1] + parent, "structuredQuery": query}}


def listen_lines(store):
    """A line for each target of the store."""
    return [json.dumps({"listen": {"id": place, "target": target_tree(target)}}).encode() + b"\n" for place, (target, _) in enumerate(store.rows)]


def wanted_lines(store, number):
    """What these print, by what each target answers; a listener whose row isn't blank shows even nothing."""
    documents = {NAME_FRONT + name: fields for name, fields in store.documents().items()}
    time = {} if store.last_read is None else {"readTime": store.last_read}
    for place, (target, row) in enumerate(store.rows):
        yield {"ok": {"commit": number, "id": place, "targetId": 2 * place + 2}}
        names = read_target(target_tree(target), NAME_FRONT).answer(documents)
        shown = [{member: inner for member, inner in printed(store, name[len(NAME_FRONT):]).items() if member != "exists"} for name in names]
        if shown or row is not None:
            yield {"snapshot": {"changes": changes_between([], shown), "commit": number, "documents": shown, "fromCache": True, "id": place, **time}}


def put_files(folder, contents):
    for number, content in enumerate(contents):
        path = os.path.join(folder, "journal.%d" % number)
        if content or number == 0:
            with open(path, "wb") as file:
                file.write(content)
        elif os.path.exists(path):
            os.remove(path)


def get_files(folder):
    contents = []
    for number in (0, 1):
        path = os.path.join(folder, "journal.%d" % number)
        contents.append(open(path, "rb").read() if os.path.exists(path) else b"")
    return tuple(contents)


def disagreement(program, folder, contents):
    """Runs the program over the pair; says where it and this reader differ, or None."""
    put_files(folder, contents)
    found, store = read_pair(contents), read_store(contents)
    gets = [get_line("rooms/" + name.decode()) for name in NAMES]
    status, output = run_lines(program, folder, gets + (listen_lines(store) if store else []))
    left = get_files(folder)
    if store is None:
        if status != 7 or output:
            return "no store, but the status is %d with %d bytes of output" % (status, len(output))
        return None if left == contents else "no store, and its files were changed"
    if status != 0:
        return "a store, but the status is %d" % status
    wanted = wanted_answers(store) + list(wanted_lines(store, len(found[3]) if found[0] == "counts" else 0))
    if [json.loads(line) for line in output.splitlines()] != wanted:
        return "a store, but the answers are %s, and %s are due" % (output.decode("utf-8", "replace"), json.dumps(wanted))
    kept = (formatted(contents[0]), contents[1]) if found[0] == "blank" else contents
    return None if left == kept else "a store, but its files became %s" % [content.hex() for content in left]


def compare(program, pairs, seed):
    chance, counts = random.Random(seed), {}
    with tempfile.TemporaryDirectory(prefix="journal-reader-", dir=memory_folder()) as folder:
        for number in range(1, pairs + 1):
            contents = random_pair(chance)
            found = read_pair(contents)
            kind = "foreign %d" % found[1] if found[0] == "foreign" else found[0]
            if kind == "counts":
                kind = "no store's payloads" if read_store(contents) is None else "file %d, %d payloads" % (found[1], len(found[3]))
            counts[kind] = counts.get(kind, 0) + 1
            wrong = disagreement(program, folder, contents)
            if wrong:
                print("pair %d of seed %d: %s" % (number, seed, wrong))
                print("  journal.0 %s\n  journal.1 %s" % (contents[0].hex(), contents[1].hex()))
                return 1
    for kind in sorted(counts):
        print("%7d  %s" % (counts[kind], kind))
    print("%d pairs of files, seed %d: the program and this reader agree on all" % (pairs, seed))
    return 0


def list_commits(count, seed):
    """Random commits, one a line: the bytes in hex, and the commit that they spell, or null. Another decoder can be tried on these."""
    chance = random.Random(seed)
    for _ in range(count):
        sound = chance.random() < 0.5
        payload = random_commit(chance, sound)
        damages = 0 if sound else chance.choice([0, 1, 1])
        for _ in range(damages):
            payload = chance.choice([change_byte, change_byte, cut, grow])(chance, payload)
        try:
            commit = read_commit(payload)
        except NoCommit:
            commit = None
        if sound and commit is None:
            print("a sound commit isn't read:", payload.hex(), file=sys.stderr)
            return 1
        print(payload.hex() or "-", json.dumps(commit))
    return 0


def show(paths):
    contents = [open(path, "rb").read() if os.path.exists(path) else b"" for path in paths]
    found = read_pair(contents)
    if found[0] != "counts":
        print(*found)
        return 0
    _, counting, generation, payloads, end = found
    print("file %d counts, generation %d, %d payloads, first closed gate at byte %d" % (counting, generation, len(payloads), end))
    for payload in payloads:
        try:
            kind, members = read_commit(payload)
            print(kind, json.dumps(members, ensure_ascii=False))
        except NoCommit:
            print("no commit:", payload.hex())
    return 0


def main():
    parser = argparse.ArgumentParser(description=__doc__.split("\n")[0])
    verbs = parser.add_subparsers(dest="verb", required=True)
    reading = verbs.add_parser("read")
    reading.add_argument("files", nargs=2)
    listing = verbs.add_parser("commits")
    listing.add_argument("--commits", type=int, default=20)
    listing.add_argument("--seed", type=int, default=1)
    comparing = verbs.add_parser("compare")
    comparing.add_argument("--program")
    comparing.add_argument("--pairs", type=int, default=10000)
    comparing.add_argument("--seed", type=int, default=1)
    words = parser.parse_args()
    if words.verb == "read":
        return show(words.files)
    if words.verb == "commits":
        return list_commits(words.commits, words.seed)
    return compare(find_program(words.program), words.pairs, words.seed)


if __name__ == "__main__":
    sys.exit(main())
