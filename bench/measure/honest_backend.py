"""An honest backend in memory: documents with the times of their writes, and the two streams of a client.

What it tells is so: at each point of the stream of listeners each target that is CURRENT was told its answer of that time. It chooses at
random all that is left to a backend: which time it looks at, how a document leaves a target, when it says that a target is CURRENT, when a
token, a filter, a RESET or a point comes, whether a target that goes on from a token is told what left its answer or is sent a filter that
shows it. A time is a text of microseconds, so that texts are ordered as the times are. A document is a pair of its fields and the time of its
last write; fields are as readers/effects.py has them. What the answers of queries are is readers/queries.py's.
"""
import base64
import bisect
import collections
import datetime
import functools

from readers.effects import at_path, path_names, printed_fields, printed_value, read_time, transformed, with_path
from readers.queries import OneDocument, read_target
from readers.store import ARRAYS, is_met, name_of, set_fields, transforms_of

BEGINNING = datetime.datetime(2024, 5, 1)
MICROSECONDS = 20_000  # the longest that lies between two times
PAST = 40  # the most writes that a new stream of listeners is behind
CHANCES = {
    "own write": 0.5, "new behind": 0.5, "still behind": 0.8, "behind": 0.3, "whole": 0.7, "part": 0.5, "filter instead": 0.5,
    "later filter instead": 0.02, "by content": 0.5, "by both": 0.1, "split": 0.2, "gone by remove": 0.3, "missing": 0.5, "filter": 0.3,
    "later filter": 0.02, "token at CURRENT": 0.4, "token between": 0.05, "point": 0.7, "token at a point": 0.5, "CURRENT at a point": 0.1,
    "RESET": 0.01, "refused": 0.003, "limbo refused": 0.3}
REFUSED, FAILED = 7, 9  # codes: a target that isn't allowed, a precondition that didn't hold


def token_of(number):
    return base64.b64encode(number.to_bytes(6, "big")).decode()


# ---- the history ------------------------------------------------------------------------------------------------------

class History:
    """All writes in their order, each as its time, its name, and the fields or None; and the documents that they leave."""

    def __init__(self):
        self.writes, self.times, self.of_name = [], [], {}

    def put(self, time, name, fields):
        self.writes.append((time, name, fields))
        self.times.append(time)
        times, left = self.of_name.setdefault(name, ([], []))
        times.append(time)
        left.append(fields)

    def document(self, name, time):
        """The document of that name at a time, or None."""
        times, left = self.of_name.get(name, ((), ()))
        place = bisect.bisect_right(times, time) - 1
        return (left[place], times[place]) if place >= 0 and left[place] is not None else None

    def documents(self, time):
        found = {name: self.document(name, time) for name in self.of_name}
        return {name: document for name, document in found.items() if document}

    def changed(self, after, upto):
        """The names that are written behind the one time and not behind the other, each once."""
        return dict.fromkeys(name for _, name, _ in self.writes[bisect.bisect_right(self.times, after):bisect.bisect_right(self.times, upto)])


def after_commit(document, write, time):
    """The document after a write that is committed at that time, and its result."""
    if write.get("delete") is not None:
        return None, {}
    old, results = document[0] if document else {}, []
    fields = set_fields(write, old)
    for transform in transforms_of(write):
        names = path_names(transform["fieldPath"])
        is_time = transform.get("setToServerValue") is not None
        value = {"timestampValue": read_time(time)} if is_time else transformed(at_path(fields, names), transform, time)
        fields = with_path(fields, names, value)
        results.append({"nullValue": None} if any(transform.get(name) is not None for name in ARRAYS) else printed_value(value))
    update = document[1] if document and fields == old else time
    return (fields, update), {"updateTime": update, **({"transformResults": results} if results else {})}


# ---- messages -----------------------------------------------------------------------------------------------------------

def target_change(change=None, ids=(), **members):
    kind = {"targetChangeType": change} if change else {}
    return {"watch": {"targetChange": {**kind, **({"targetIds": list(ids)} if ids else {}), **members}}}


def document_change(name, document, ids=(), left=()):
    fields, update = document
    lists = {**({"targetIds": list(ids)} if ids else {}), **({"removedTargetIds": list(left)} if left else {})}
    return {"watch": {"documentChange": {"document": {"name": name, "fields": printed_fields(fields), "updateTime": update}, **lists}}}


# ---- the stream of listeners ----------------------------------------------------------------------------------------------

class Told:
    """A target of the stream: the documents that match it, the update times of those that it was told, and of these the ones that left its
    answer and are told to have left by a filter alone."""

    def __init__(self, target, told, is_resumed):
        self.target, self.told, self.is_resumed = target, told, is_resumed
        self.rows, self.updates, self.stale, self.is_current = {}, {}, set(), False
        self.is_due = False  # a filter is

    def look(self, name, document):
        """The document of that name is this one by now."""
        self.rows.pop(name, None)
        row = None
        if document and isinstance(self.target, OneDocument):
            row = [] if name == self.target.name else None
        elif document:
            row = self.target.row_of(name, document[0])
        if row is not None:
            self.rows[name], self.updates[name] = row, document[1]

    def answer(self):
        """The update times of the answer's documents, by their names."""
        limit, names = getattr(self.target, "limit", None), list(self.rows)
        if limit is not None and len(names) > limit:
            order = functools.cmp_to_key(lambda one, other: self.target.compared(self.rows[one], self.rows[other]))
            names = sorted(names, key=order)[:limit]
        return {name: self.updates[name] for name in names}

    def reset(self):
        self.told, self.stale, self.is_resumed, self.is_current = {}, set(), False, False


class Listening:
    """One stream of listeners: the time that it looks at, the documents of that time, the targets by their ids, and what is on its way."""

    def __init__(self, backend, view):
        self.backend, self.chances, self.view = backend, backend.chances, view
        self.documents, self.targets, self.out = backend.history.documents(view), {}, collections.deque()
        self.waiting = []  # tokens that speak of the next point
        self.is_behind = True

    def say(self, change=None, ids=(), **members):
        self.out.append(target_change(change, ids, **members))

    def new_token(self):
        self.waiting.append(self.backend.new_token())
        return self.waiting[-1]

    def take(self, request):
        if "removeTarget" in request:
            if self.targets.pop(request["removeTarget"], None):
                self.say("REMOVE", [request["removeTarget"]])
        else:
            self.add(request["addTarget"]["targetId"], request["addTarget"])

    def add(self, number, asked):
        if self.backend.refused in str(asked) or number % 2 and self.chances("limbo refused"):
            self.say("REMOVE", [number], cause={"code": REFUSED})
            return
        target, token = read_target(asked, self.backend.front), asked.get("resumeToken")
        told = self.targets[number] = Told(target, {}, token is not None)
        if token is not None:
            for name, document in self.backend.history.documents(self.backend.tokens[token]).items():
                told.look(name, document)
            told.told, told.rows = told.answer(), {}
        for name, document in self.documents.items():
            told.look(name, document)
        self.say("ADD", [number])

    def advance(self):
        """Looks at a later time: now, or that of a write before."""
        later = self.backend.history.times[bisect.bisect_right(self.backend.history.times, self.view):]
        self.is_behind = self.is_behind and bool(later) and self.chances("still behind")
        is_past = self.is_behind or later and self.chances("behind")
        view = self.backend.chance.choice(later[:len(later) // 2 + 1]) if is_past else self.backend.tick()
        for name in self.backend.history.changed(self.view, view):
            document = self.backend.history.document(name, view)
            self.documents.pop(name, None)
            if document:
                self.documents[name] = document
            for told in self.targets.values():
                told.look(name, document)
        self.view = view

    def work(self):
        """Tells the targets what changed, or were not told yet, and often a point behind that."""
        self.advance()
        news, whole = {}, []  # by name: the targets that get it, and those that it leaves
        for number, told in self.targets.items():
            if self.chances("RESET"):
                told.reset()
                self.say("RESET", [number])
            if self.tell(number, told, news):
                whole.append(number)
        for name, (puts, leaves) in news.items():
            self.say_document(name, puts, leaves)
        for number in whole:
            self.count(number, self.targets[number])
        self.complete([number for number in whole if not self.targets[number].is_current])
        if self.chances("refused") and self.targets:
            number = self.backend.chance.choice(list(self.targets))
            del self.targets[number]
            self.say("REMOVE", [number], cause={"code": REFUSED})
        if self.chances("point"):
            self.point()

    def tell(self, number, told, news):
        """Puts in what the target is to be told; gives whether it was told all of its answer then."""
        answer, is_whole = told.answer(), told.is_current or self.chances("whole")
        told.stale.difference_update(answer)
        for name, update in answer.items():
            if told.told.get(name) != update and (is_whole or self.chances("part")):
                news.setdefault(name, ([], []))[0].append(number)
                told.told[name] = update
        left = [name for name in told.told if name not in answer and name not in told.stale]
        by_filter = "later filter instead" if told.is_current else "filter instead"
        if left and is_whole and (told.is_current or told.is_resumed) and self.chances(by_filter):
            told.stale |= set(left)
            left, told.is_due = [], True
        for name in left:
            news.setdefault(name, ([], []))[1].append(number)
            del told.told[name]
        return is_whole

    def say_document(self, name, puts, leaves):
        """A document is told to some targets, and leaves others."""
        document = self.documents.get(name)
        gone = {"document": name, "removedTargetIds": leaves, "readTime": self.view}
        if document and puts and leaves and self.chances("split"):
            self.out.append(document_change(name, document, puts))
            puts = []
        if document and (puts or self.chances("by content")):
            self.out.append(document_change(name, document, puts or (leaves if self.chances("by both") else ()), leaves))
        elif document or self.chances("gone by remove"):
            self.out.append({"watch": {"documentRemove": gone}})
        else:
            self.out.append({"watch": {"documentDelete": gone}})

    def count(self, number, told):
        """The target was told all of its answer: perhaps it is said that there is no document, or a filter counts them."""
        if isinstance(told.target, OneDocument) and not told.is_current and not told.answer() and self.chances("missing"):
            self.out.append({"watch": {"documentDelete": {"document": told.target.name, "removedTargetIds": [number], "readTime": self.view}}})
        if told.is_due or self.chances("later filter" if told.is_current else "filter"):
            self.out.append({"watch": {"filter": {"targetId": number, "count": len(told.answer())}}})
            told.is_due = False
        if told.is_current and self.chances("token between"):
            self.say(None, [number], resumeToken=self.new_token(), readTime=self.view)

    def complete(self, numbers):
        """These targets are CURRENT: it is said at once or of each, or where there is no other one, of all at a point."""
        for number in numbers:
            self.targets[number].is_current = True
        if numbers and all(told.is_current for told in self.targets.values()) and self.chances("CURRENT at a point"):
            self.point("CURRENT")
            return
        for some in [numbers] if numbers and self.chances("part") else [[number] for number in numbers]:
            self.say("CURRENT", some, **({"resumeToken": self.new_token(), "readTime": self.view} if self.chances("token at CURRENT") else {}))

    def point(self, change=None):
        self.say(change, readTime=self.view, **({"resumeToken": self.new_token()} if self.chances("token at a point") else {}))
        self.backend.tokens.update((token, self.view) for token in self.waiting)
        self.waiting = []


# ---- the stream of writes -------------------------------------------------------------------------------------------------

class Writing:
    """One stream of writes: the batches that weren't taken yet, and what is on its way."""

    def __init__(self, backend):
        self.backend, self.asked, self.out, self.has_ended = backend, collections.deque(), collections.deque(), False

    def take(self, request):
        if "writes" in request:
            self.asked.append(request["writes"])
        else:
            self.out.append({"written": {"streamId": "s", "streamToken": self.backend.new_token()}})

    def work(self):
        """Commits the next batch; where its preconditions don't hold, the stream ends."""
        if self.has_ended or not self.asked:
            return
        done = self.backend.commit(self.asked.popleft())
        if done is None:
            self.has_ended = True
            self.out.append({"close": {"stream": "write", "status": {"code": FAILED}}})
        else:
            time, results = done
            self.out.append({"written": {"commitTime": time, "streamToken": self.backend.new_token(), "writeResults": results}})


# ---- the backend ------------------------------------------------------------------------------------------------------------

class HonestBackend:
    """The backend of one database. `own_write` makes a write of another client; targets in the collection `refused` are refused."""

    def __init__(self, chance, front, own_write, refused):
        self.chance, self.front, self.own_write, self.history = chance, front, own_write, History()
        self.refused = "%s%s/" % (front, refused)
        self.clock, self.last_token, self.tokens = 0, 0, {}  # `tokens`: the time of the point that each speaks of
        self.streams = {}

    def chances(self, what):
        return self.chance.random() < CHANCES[what]

    def tick(self):
        """A time later than all before."""
        self.clock += self.chance.randint(1, MICROSECONDS)
        return (BEGINNING + datetime.timedelta(microseconds=self.clock)).isoformat(timespec="microseconds") + "Z"

    def new_token(self):
        self.last_token += 1
        return token_of(self.last_token)

    def commit(self, writes):
        """Takes a batch; gives its time and its results, or None where a precondition doesn't hold."""
        time, after, results = self.tick(), {}, []
        for write in writes:
            name = name_of(write)
            document = after[name] if name in after else self.history.document(name, time)
            if not is_met(write.get("currentDocument"), document):
                return None
            after[name], result = after_commit(document, write, time)
            results.append(result)
        for name, document in after.items():
            if document != self.history.document(name, time):
                self.history.put(time, name, document and document[0])
        return time, results

    def open(self, stream):
        if stream == "write":
            self.streams[stream] = Writing(self)
        else:
            times = self.history.times[-PAST:]
            self.streams[stream] = Listening(self, self.chance.choice(times) if times and self.chances("new behind") else self.tick())

    def close(self, stream):
        """The stream ends: what is on its way is lost."""
        del self.streams[stream]

    def take(self, stream, request):
        self.streams[stream].take(request)

    def work(self, stream):
        """Something happens on the stream, behind some writes of another client."""
        while self.chances("own write"):
            self.commit([self.own_write()])
        self.streams[stream].work()
