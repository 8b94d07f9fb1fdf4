#!/usr/bin/env python3
"""Another reader of input lines, by the description in docs/FORMATS.md, against the program.

    bench/readers/line_reader.py compare [--queries] [--program P] [--runs N] [--lines N] [--minutes M] [--seed S]
    bench/readers/line_reader.py answer [DATABASE] < LINES

`compare` feeds the program the damaged lines of fuzz_lines.py, lines that are built with several faults at once (built_lines.py), and
openings, closings and messages of both streams, many of which fit what is outstanding or asked for by then (built_messages.py). What it
prints must be, byte for byte, what this reader prints: the numbers of an `ok`, the printed document with the pending writes laid over it,
the number, the member and the name of a refusal, the snapshots that a line raises, and the requests that it sends. With `--queries` the
lines are writes, gets and queries without faults, each query over what the writes left by then. A store has two runs,
one behind the other; behind each its journal must have the targets of all listeners, with their whole lists of orders and their rows,
the pending batches, and give the same documents. What writes make of a document is worked out here by what stands at each path, and not
by setting one path after another; what a query answers, by who comes before each document; what a target was told, by the last message
that names each document. `answer` prints what this reader prints for lines over an empty store. The JSON itself is read by Python's json.
"""
import argparse
import collections
import json
import math
import os
import random
import shutil
import subprocess
import sys
import tempfile
import time

sys.dont_write_bytecode = True
sys.path.insert(0, os.path.dirname(os.path.dirname(os.path.abspath(__file__))))
from client import find_program, memory_folder, run_lines  # noqa: E402
from readers.effects import given, read_time, read_whole  # noqa: E402
from readers.faults import (DEEP, DEEPEST_VALUE, NAME, ORDER, SHAPE, UNSUPPORTED, bad_member, condition_faults, fields_faults, in_order, mask_faults,  # noqa: E402
                            name_faults, object_faults, transforms_faults)
from readers.journal_reader import get_files, read_store  # noqa: E402
from readers.queries import changes_between, read_target, target_faults, whole_faults  # noqa: E402
from readers.store import Store, moment  # noqa: E402
from readers.watch_stream import DocumentMessage, Limbo, TargetMessage, WatchStream, kind_of, number_in, version_of, watch_faults  # noqa: E402
from readers.write_stream import Message, WriteStream, close_faults, member_of, message_faults, open_faults  # noqa: E402
from trials.built_lines import DATABASE, GOOD_NAMES, built_line, built_target, built_write_line  # noqa: E402
from trials.built_messages import built_message, built_watch_message  # noqa: E402
from trials.fuzz_lines import keep, random_line, sample_lines  # noqa: E402
from trials.printed_lines import items_of  # noqa: E402

sys.set_int_max_str_digits(0)

LONGEST = 4194304
DEEPEST_TEXT = 127
LAST_LISTENER = 2**32 - 1

COUNT, QUERY, TAKEN, NO_LISTENER, STATE, MESSAGE, LENGTH = 5, 6, 7, 8, 9, 10, 11
CAUSES = {SHAPE: "BadLine", DEEP: "TooDeep", UNSUPPORTED: "Unsupported", NAME: "BadName", COUNT: "BadWrites", QUERY: "BadQuery", TAKEN: "ListenerTaken",
          NO_LISTENER: "NoListener", STATE: "StreamState", MESSAGE: "BadMessage", LENGTH: "LineTooLong"}
BESIDES = {SHAPE: ["member"], UNSUPPORTED: ["member"], NAME: ["fault", "name"], COUNT: ["count"], QUERY: ["fault"], TAKEN: ["id"], NO_LISTENER: ["id"],
           STATE: ["open", "stream"], MESSAGE: ["member", "stream"]}

ALTERNATIVES = ("delete", "transform", "update")
MOST_WRITES = 500


class NoJson(Exception):
    """The line is no JSON as it is read here."""


# ---- JSON ---------------------------------------------------------------------------------------------------------

def whole_or_float(text):
    """A number without fraction or exponent: kept as it is where it fits 64 bits, and else a float, as `-0` is."""
    number = int(text)
    if text == "-0" or not -2**63 <= number < 2**64:
        return float_of(text)
    return number


def float_of(text):
    number = float(text)
    if math.isinf(number):
        raise NoJson()
    return number


def no_constant(text):
    raise NoJson()


class AllMembers(list):
    """An object as it is written, with each member."""


def look_through(tree, depth=0):
    """Refuses texts with half a surrogate pair and trees that nest too deep, in each member that is written."""
    if isinstance(tree, str) and any("\ud800" <= letter <= "\udfff" for letter in tree):
        raise NoJson()
    if isinstance(tree, list):
        if depth == DEEPEST_TEXT:
            raise NoJson()
        for inner in tree:
            if isinstance(tree, AllMembers):
                look_through(inner[0])
                inner = inner[1]
            look_through(inner, depth + 1)


def merged(tree):
    """The tree in which the last member of a name counts."""
    if isinstance(tree, AllMembers):
        return {name: merged(inner) for name, inner in tree}
    if isinstance(tree, list):
        return [merged(inner) for inner in tree]
    return tree


def read_json(line):
    try:
        tree = json.loads(line.decode("utf-8"), parse_int=whole_or_float, parse_float=float_of,
                          parse_constant=no_constant, object_pairs_hook=AllMembers)
    except (ValueError, RecursionError):
        raise NoJson() from None
    look_through(tree)
    return merged(tree)


class Refused(Exception):
    """The line is refused: its number, and what is printed besides."""


def least(faults):
    """The first of the faults of the first number, or None."""
    return min(faults, key=lambda fault: ORDER.index(fault[0]), default=None)


UNKNOWN, ONLINE, OFFLINE = "unknown", "online", "offline"


class Listener:
    """A listener to the target of that number; what it has raised last, or None."""

    def __init__(self, target, number):
        self.target, self.number, self.raised = target, number, None

    def snapshot(self, shown, from_cache, is_due):
        """What has changed where these documents are shown, and the documents; None where no snapshot is raised. The first one is raised
        where it is due."""
        if self.raised == (shown, from_cache) or self.raised is None and not is_due:
            return None
        changes, self.raised = changes_between(self.raised[0] if self.raised else [], shown), (shown, from_cache)
        return {"changes": changes, "documents": shown, "fromCache": from_cache}


class Reader:
    """A store over one database that reads lines and answers them."""

    def __init__(self, database=DATABASE):
        self.database, self.front, self.store, self.commits = database, database + "/documents/", Store(), 0
        self.begin()

    def begin(self):
        """A run over the store begins."""
        self.listeners, self.stream, self.watched, self.limbo = {}, WriteStream(), WatchStream(), Limbo(self.front)
        self.online, self.current, self.reset = UNKNOWN, {}, set()  # `current`: the keys of each current target; `reset`: the ids reset by a line

    def commit(self, kind, *members):
        """Makes the commit; gives its number."""
        self.store.commit(kind, members)
        self.commits += 1
        return self.commits

    def update_faults(self, tree):
        readers = {"fields": lambda fields: fields_faults(fields, DEEPEST_VALUE), "name": lambda inner: name_faults(inner, "name", self.front)}
        yield from object_faults(tree, "update", readers, ("name",))

    def write_faults(self, tree):
        chosen = [name for name in ALTERNATIVES if isinstance(tree, dict) and tree.get(name) is not None]
        if len(chosen) != 1:
            yield (SHAPE, "writes")
            return

        def unsupported(inner):
            yield (UNSUPPORTED, "transform")
        readers = {"currentDocument": condition_faults, "delete": lambda inner: name_faults(inner, "delete", self.front)}
        if chosen != ["delete"]:
            readers.update({"update": self.update_faults, "updateMask": mask_faults, "updateTransforms": transforms_faults, "transform": unsupported})
        yield from in_order(tree, readers, (), bad_member)

    def writes_faults(self, tree):
        if not isinstance(tree, list):
            yield (SHAPE, "writes")
            return
        for write in tree:
            yield from self.write_faults(write)

    def write_line_faults(self, tree):
        def at(text):
            if not isinstance(text, str) or read_time(text) is None:
                yield (SHAPE, "at")
        yield from object_faults(tree, "write", {"at": at, "writes": self.writes_faults}, ("at",))

    def get_line_faults(self, tree):
        yield from object_faults(tree, "get", {"name": lambda inner: name_faults(inner, "name", self.front)}, ("name",))

    def listen_line_faults(self, tree):
        readers = {"id": id_faults, "target": lambda inner: target_faults(inner, self.front)}
        yield from object_faults(tree, "listen", readers, ("target",))

    def unlisten_line_faults(self, tree):
        yield from object_faults(tree, "unlisten", {"id": id_faults})

    def line_faults(self, tree):
        members = given(tree) if isinstance(tree, dict) else []
        if len(members) != 1:
            yield (SHAPE, "")
            return
        name, inner = members[0]
        readers = {"write": self.write_line_faults, "get": self.get_line_faults, "listen": self.listen_line_faults, "unlisten": self.unlisten_line_faults,
                   "open": open_faults, "close": close_faults, "timer": timer_faults, "watch": lambda inner: (), "written": lambda inner: ()}
        yield from readers[name](inner) if name in readers else [(SHAPE, "")]

    def write(self, line):
        writes = line.get("writes") or []
        if not 1 <= len(writes) <= MOST_WRITES:
            raise Refused(COUNT, len(writes))
        batch = self.store.next_batch
        return [{"ok": {"batch": batch, "commit": self.commit("Enqueue", batch, read_time(line["at"]), writes)}}]

    def get(self, line):
        return [{"document": self.store.shown(line["name"])}]

    def listen(self, line):
        number, target = id_of(line), read_target(line["target"], self.front)
        if target.broken_rule():
            raise Refused(QUERY, target.broken_rule())
        if number in self.listeners:
            raise Refused(TAKEN, number)
        targets = [row[0] for row in self.store.rows]
        place = targets.index(target.spelled()) if target.spelled() in targets else len(targets)
        if place == len(targets):
            self.commit("Allocate", 2 * place + 2, target.spelled())
        self.listeners[number] = Listener(target, 2 * place + 2)
        return [{"ok": {"commit": self.commits, "id": number, "targetId": 2 * place + 2}}]

    def unlisten(self, line):
        if self.listeners.pop(id_of(line), None) is None:
            raise Refused(NO_LISTENER, id_of(line))
        return [{"ok": {"commit": self.commits, "id": id_of(line)}}]

    def expect(self, name, is_open):
        """The stream of that name, which must be open, or closed."""
        stream = {"watch": self.watched, "write": self.stream}[name]
        if stream.is_open != is_open:
            raise Refused(STATE, stream.is_open, name)
        return stream

    def open(self, line):
        self.expect(line["stream"], False).open()
        return [{"send": {"write": {"database": self.database}}}] if line["stream"] == "write" else []

    def close(self, line):
        self.expect(line["stream"], True)
        status = printed_status(line.get("status") or {})
        if line["stream"] == "watch":
            self.close_watch()
            return []
        is_rejecting = self.stream.rejects(status.get("code", 0))
        self.stream.close()
        if not is_rejecting:
            return []
        batch = self.store.pending[0][0]
        return [{"rejected": {"batch": batch, "commit": self.commit("Reject", batch), "status": status}}]

    def close_watch(self):
        self.watched.close()
        self.online = UNKNOWN if not self.listeners or self.online == ONLINE else OFFLINE

    def timer(self, line):
        if self.online == UNKNOWN:
            self.online = OFFLINE
        return []

    def fail(self, name, member):
        """A message that doesn't fit closes its stream."""
        if name == "watch":
            self.close_watch()
        else:
            self.stream.close()
        raise Refused(MESSAGE, member, name)

    def written(self, inner):
        self.expect("write", True)
        fault = least(message_faults(inner))
        if fault:
            self.fail("write", member_of(fault))
        message = Message(inner)
        if not self.stream.is_ready:
            return self.shake_hands(message)
        misfit = message.misfit(self.store.pending[0][2] if self.stream.outstanding else None)
        if misfit:
            self.fail("write", misfit)
        batch = self.store.pending[0][0]
        number = self.commit("Acknowledge", batch, message.commit, message.results)
        self.stream.outstanding -= 1
        self.stream.take_token(message.token)
        return [{"result": {"batch": batch, "commit": number, "commitTime": message.commit}}]

    def shake_hands(self, message):
        if message.results:
            self.fail("write", "writeResults")
        self.stream.is_ready = True
        self.stream.take_token(message.token)
        return []

    def watch(self, inner):
        self.expect("watch", True)
        fault = least(watch_faults(inner, self.front))
        if fault:
            self.fail("watch", member_of(fault))
        kind = kind_of(inner)
        message = TargetMessage(inner[kind]) if kind == "targetChange" else None
        misfit = message and self.watched.misfit(message)
        if misfit:
            self.fail("watch", misfit)
        self.online = ONLINE
        if message:
            return self.take_change(message)
        if kind == "filter":
            self.count(number_in(inner[kind], "targetId"), number_in(inner[kind], "count"))
        else:
            self.watched.document(DocumentMessage(kind, inner[kind]))
        return []

    def take_change(self, message):
        ended = self.watched.change(message)
        if message.is_point():
            self.point(message.at)
        return self.end(ended, message.cause) if ended else []

    def count(self, number, count):
        """A filter says how many documents a target has."""
        found = self.watched.counting().get(number)
        if found is not None and len(found.told()) != count:
            self.blank([], {number})

    def blank(self, names, numbers, ended=()):
        """These targets are reset, those have ended, and the entries of these names go: their rows become blank, by one commit at most."""
        rows = sorted(number for number in {*numbers, *ended} if number % 2 == 0)
        if names:
            self.commit("Drop", names, rows)
        elif any(self.store.row_of(number) for number in rows):
            self.commit("Reset", rows)
        self.current = {number: keys for number, keys in self.current.items() if number not in numbers}
        self.reset |= set(numbers)

    def holders(self, names):
        """The targets that hold one of these names: in their rows, as they were told, or as they are current."""
        rows = {2 * place + 2: row["keys"] for place, (_, row) in enumerate(self.store.rows) if row}
        told = {number: found.told() for number, found in self.watched.counting().items()}
        return {number for held in (rows, told, self.current) for number, keys in held.items() if set(keys) & set(names)}

    def end(self, ended, cause):
        """The end of these targets; the entry of a document in limbo goes with its listen."""
        names = [name for number, name in self.limbo.running.items() if number in ended]
        lines = [{"error": {"id": number, "status": printed_status(cause)}} for number in sorted(self.listeners) if self.listeners[number].number in ended]
        self.listeners = {number: listener for number, listener in self.listeners.items() if listener.number not in ended}
        self.blank(names, self.holders(names) - ended, ended)
        return lines

    def point(self, at):
        """All that came before it holds as of this time; one below the last of them is passed over."""
        if self.store.last_read is not None and moment(at) < moment(self.store.last_read):
            self.watched.forget_tokens()
            return
        current = {number: found for number, found in self.watched.counting().items() if found.is_current}
        entries = {name: entry for name, entry in self.watched.buffer.items() if self.store.gives_way(name, version_of(entry))}
        for found in current.values():
            name = getattr(found.target, "name", None)
            if name is not None and name not in found.told() and self.is_older(name, entries.get(name), at):
                entries[name] = {"missingSince": at}
        rows = [{"id": number, "token": found.token, "keys": sorted(found.told())} for number, found in sorted(current.items())
                if number % 2 == 0 and found.token]
        self.commit("Point", at, entries, rows)
        wanted = {listener.number for listener in self.listeners.values()}
        self.current = {number: found.told() for number, found in current.items() if number in wanted}
        self.watched.settle_point()

    def is_older(self, name, entry, at):
        """Whether what is known of that name, which is this entry where it comes with the same point, gives way to there being none."""
        if entry is not None:
            return "fields" in entry and moment(version_of(entry)) < moment(at)
        known, seal = self.store.entries.get(name, ((None, None, False), None))
        is_missing = known[0] is None and known[2] and seal is None
        return not is_missing and self.store.gives_way(name, at)

    def answer(self, line):
        """The answer to a line, as a list; it is taken, or raises Refused."""
        if len(line) > LONGEST:
            raise Refused(LENGTH)
        try:
            tree = read_json(line)
        except NoJson:
            raise Refused(SHAPE, "") from None
        fault = least(self.line_faults(tree))
        if fault:
            raise Refused(*fault)
        (name, inner), = given(tree)
        return {"write": self.write, "get": self.get, "listen": self.listen, "unlisten": self.unlisten, "open": self.open, "close": self.close,
                "written": self.written, "watch": self.watch, "timer": self.timer}[name](inner)

    def in_limbo(self, listener, names):
        """The names that a listener shows without the backend's word; None where its target isn't current."""
        keys = self.current.get(listener.number)
        return None if keys is None else {name for name in names if name not in keys and not self.store.is_touched(name)}

    def snapshots(self):
        """The snapshots that are raised now; what is in limbo gets its listens."""
        wanted = {listener.number for listener in self.listeners.values()}
        self.current = {number: keys for number, keys in self.current.items() if number in wanted and self.online != OFFLINE}
        documents = self.store.documents() if self.listeners else {}
        shown = {number: listener.target.answer(documents) for number, listener in self.listeners.items()}
        limbo = {number: self.in_limbo(self.listeners[number], names) for number, names in shown.items()}
        self.limbo.want(set().union(*filter(None, limbo.values())))
        at = {} if self.store.last_read is None else {"readTime": self.store.last_read}
        for number in sorted(self.listeners):
            listener, from_cache = self.listeners[number], limbo[number] is None or bool(limbo[number])
            is_due = not from_cache or shown[number] or self.store.row_of(listener.number) is not None or self.online == OFFLINE
            found = listener.snapshot([printed(self.store.shown(name)) for name in shown[number]], from_cache, is_due)
            if found is not None:
                yield {"snapshot": {**found, **at, "commit": self.commits, "id": number}}

    def listen_requests(self):
        """The requests that are sent now on the stream of listeners."""
        if not self.watched.is_open:
            return
        targets = {**{listener.number: listener.target for listener in self.listeners.values()}, **self.limbo.targets()}
        for number in sorted(self.watched.asked()):
            if number not in targets or number in self.reset:
                self.watched.remove(number)
                yield {"send": {"listen": {"database": self.database, "removeTarget": number}}}
        for number in sorted(set(targets) - self.watched.asked(), key=lambda number: (number % 2, number)):
            row = self.store.row_of(number)
            self.watched.add(number, targets[number], row["keys"] if row else ())
            resume = {"expectedCount": len(row["keys"]), "resumeToken": row["token"]} if row else {}
            yield {"send": {"listen": {"addTarget": {**targets[number].printed(), **resume, "targetId": number}, "database": self.database}}}

    def lines(self, number, line):
        """What is printed for a line of that number, each without its newline."""
        self.reset = set()
        try:
            answer = list(map(spelled, self.answer(line)))
        except Refused as refusal:
            answer = [refused(number, *refusal.args)]
            if refusal.args[0] != MESSAGE:
                return answer
        raised = list(self.snapshots())
        return answer + list(map(spelled, raised + list(self.listen_requests()) + list(self.stream.requests(self.store.pending))))


def timer_faults(tree):
    def name(text):
        if text != "online":
            yield (SHAPE, "name")
    yield from object_faults(tree, "timer", {"name": name}, ("name",))


def id_faults(tree):
    yield from whole_faults(tree, "id", 0, LAST_LISTENER)


def id_of(line):
    return 0 if line.get("id") is None else read_whole(line["id"])


# ---- what is printed ----------------------------------------------------------------------------------------------

def spelled(tree):
    return json.dumps(tree, ensure_ascii=False, separators=(",", ":"), sort_keys=True).encode()


def printed(document):
    """A document of a snapshot: as a get prints it, but that it is there goes without saying."""
    return {name: inner for name, inner in document.items() if name != "exists"}


def printed_status(status):
    code, message = read_whole(status.get("code") or 0), status.get("message") or ""
    return {**({"code": code} if code else {}), **({"message": message} if message else {})}


def refused(number, cause, *besides):
    body = {"cause": CAUSES[cause], "line": number, "number": cause, **dict(zip(BESIDES.get(cause, []), besides))}
    return spelled({"refused": body})


# ---- against the program ------------------------------------------------------------------------------------------

MESSAGE_MEMBERS = ("cause", "commitTime", "count", "document", "name", "readTime", "removedTargetIds", "resumeToken", "streamToken", "targetChangeType",
                   "targetId", "targetIds", "transformResults", "updateTime", "value", "watch", "writeResults", "written")


def what_is(answer):
    """What is counted of a printed line."""
    (name, body), = json.loads(answer).items()
    if name == "ok":
        return "ok of a write" if "batch" in body else "ok of a listen" if "targetId" in body else "ok of an unlisten"
    if name == "send" and "listen" in body:
        request = body["listen"]
        kind = "remove" if "removeTarget" in request else "add, from a point" if "resumeToken" in request["addTarget"] else "add"
        number = request.get("removeTarget") or request["addTarget"]["targetId"]
        return "send of a%s %s" % (" limbo" if number % 2 else " target's", kind)
    if name == "send":
        return "send of a batch" if "writes" in body["write"] else "send of a handshake"
    if name == "document":
        return "document, " + body["state"]
    if name == "snapshot":
        kinds = ", ".join(sorted({change["kind"] for change in body["changes"]})) or "no change"
        return "snapshot of %s, %s" % (kinds, "from cache" if body["fromCache"] else "in step")
    if body.get("cause") == "BadMessage":
        return "refused as BadMessage of %s, %s" % (body["stream"], body["member"] if body["member"] in MESSAGE_MEMBERS else "another member")
    return name if name != "refused" else "refused as " + body["cause"] + (" %d" % body["fault"] if "fault" in body and "name" not in body else "")


class Tally:
    """What was compared: printed lines of each kind, and the documents and the queries in them, each once."""

    def __init__(self):
        self.counts, self.documents, self.queries = collections.Counter(), set(), set()

    def take(self, line, printed):
        """What was printed for the line is as it is due."""
        for answer in printed:
            self.counts[what_is(answer)] += 1
            (_, body), = json.loads(answer).items()
            for document in body.get("documents", [body] if "exists" in body else []):
                self.documents.add(hash(spelled([document["name"], document.get("fields")])))
            if "targetId" in body:
                self.queries.add(hash(spelled(read_json(line)["listen"]["target"])))


def shortened(lines):
    return [line[:600] for line in lines]


def built_items(chance, trees, count, reader):
    """The lines of a run, one by one; each is answered by the reader before the next is built. In some runs few are of a stream."""
    of_writes, of_listeners = chance.choice([0.05, 0.2, 0.35, 0.5]), chance.choice([0.05, 0.3, 0.45])
    for _ in range(count):
        kind = chance.random()
        if kind < of_writes:
            line = built_message(chance, reader.stream, reader.store.pending, reader.store.last_read)
        elif kind < of_writes + of_listeners:
            line = built_watch_message(chance, reader.watched, reader.store.last_read)
        else:
            line = built_line(chance) if chance.random() < 0.6 else random_line(chance, trees)
        yield from line.split(b"\n")


def query_items(chance, count):
    """As many lines, without faults: writes, and behind each a query that is listened to, a get, and the end of the listener."""
    for _ in range(count // 4):
        lines = [{"write": built_write_line(chance, 0)}, {"listen": {"target": built_target(chance, 0)}},
                 {"get": {"name": "%s/documents/%s" % (DATABASE, chance.choice(GOOD_NAMES))}}, {"unlisten": {}}]
        yield from map(spelled, lines)


def journal_fault(store, reader):
    """What is wrong with the journal, or None: it gives another store than the reader has."""
    found, front = read_store(get_files(store)), reader.front
    if found is None:
        return "the journal is no store's"
    if [row[0] for row in found.rows] != [row[0] for row in reader.store.rows]:
        return "the journal has other targets than were asked for"
    rows = [row and {**row, "keys": sorted(key[len(front):] for key in row["keys"])} for _, row in reader.store.rows]
    if [row and {**row, "keys": sorted(row["keys"])} for _, row in found.rows] != rows:
        return "the journal has another row"
    if found.last_read != reader.store.last_read:
        return "the journal has another last read time"
    if [batch[0] for batch in found.pending] != [batch[0] for batch in reader.store.pending]:
        return "the journal has other pending batches"
    names = {front + name for name in found.names()} | reader.store.names()
    wrong = [name for name in sorted(names) if {**found.shown(name[len(front):]), "name": name} != reader.store.shown(name)]
    return "the journal gives another document of %s" % wrong[0] if wrong else None


def try_lines(program, store, reader, lines, last, tally):
    """Feeds one run, of a store as the reader has it; gives its input, and what is wrong, or None."""
    reader.begin()
    due = [(line, reader.lines(number, line)) for number, line in enumerate(lines, 1)]
    text = b"\n".join(line for line, _ in due) + (b"\n" if not due or due[-1][0] == b"" else last)
    try:
        status, output = run_lines(program, store, [text], seconds=120)
    except subprocess.TimeoutExpired:
        return text, "no end within 120 seconds"
    return text, difference(due, status, items_of(output), tally) or journal_fault(store, reader)


def difference(due, status, came, tally):
    """The first place at which other lines came than were due, or None."""
    at = 0
    for number, (line, wanted) in enumerate(due, 1):
        found = came[at:at + len(wanted)]
        if found != wanted:
            return "line %d, %r: %s is printed, and %s is due" % (number, line[:600], shortened(found), shortened(wanted))
        at += len(wanted)
        tally.take(line, found)
    if status != 0 or at != len(came):
        return "status %d, and %d lines are printed where %d are due" % (status, len(came), at)
    return None


def try_store(program, store, chance, trees, words, tally):
    """Two runs over a fresh store; says what is wrong, or None."""
    shutil.rmtree(store, ignore_errors=True)
    reader, texts = Reader(), []
    for count in (words.lines * 3 // 4, words.lines // 4):
        lines = query_items(chance, count) if words.queries else built_items(chance, trees, count, reader)
        text, wrong = try_lines(program, store, reader, lines, chance.choice([b"", b"\n"]), tally)
        texts.append(text)
        if wrong:
            return "%s; the input is kept as %s" % (wrong, " and ".join(keep("lines", each) for each in texts))
    return None


def compare(words):
    program, chance, trees, tally = find_program(words.program), random.Random(words.seed), sample_lines(), Tally()
    ends, number, wrong = time.monotonic() + 60 * words.minutes, 0, None
    with tempfile.TemporaryDirectory(prefix="line-reader-", dir=memory_folder()) as folder:
        while not wrong and (time.monotonic() < ends if words.minutes else number < words.runs):
            number += 1
            wrong = try_store(program, os.path.join(folder, "store"), chance, trees, words, tally)
    if wrong:
        print("store %d of seed %d: %s" % (number, words.seed, wrong))
    for what in sorted(tally.counts):
        print("%9d  %s" % (tally.counts[what], what))
    print("%d printed lines with %d documents and %d queries compared over %d stores, seed %d: %s" % (
        tally.counts.total(), len(tally.documents), len(tally.queries), number, words.seed, "they differ" if wrong else "they agree on all"))
    return 1 if wrong else 0


def main():
    parser = argparse.ArgumentParser(description=__doc__.split("\n")[0])
    commands = parser.add_subparsers(dest="command", required=True)
    comparing = commands.add_parser("compare")
    comparing.add_argument("--queries", action="store_true", help="writes and queries without faults alone")
    comparing.add_argument("--program")
    comparing.add_argument("--runs", type=int, default=20)
    comparing.add_argument("--lines", type=int, default=3000)
    comparing.add_argument("--minutes", type=float, default=0)
    comparing.add_argument("--seed", type=int, default=1)
    answering = commands.add_parser("answer")
    answering.add_argument("database", nargs="?", default=DATABASE)
    words = parser.parse_args()
    sys.setrecursionlimit(20000)
    if words.command == "compare":
        return compare(words)
    reader = Reader(words.database)
    for number, line in enumerate(items_of(sys.stdin.buffer.read()), 1):
        sys.stdout.buffer.write(b"".join(printed_line + b"\n" for printed_line in reader.lines(number, line)))
    return 0


if __name__ == "__main__":
    sys.exit(main())
