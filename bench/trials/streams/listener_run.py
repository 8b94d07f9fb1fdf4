"""A run of both streams: listeners, local writes and those of another client, closings, and ends and kills of the program.

The requests that the program prints are passed on, and what the backend tells is delivered, one by one and in any order of the two
streams, a while after it came; where a stream is closed, or the program ends, all that is on its way is lost.

At a quiet moment everything has arrived. Each view that isn't from the cache must then show, of the documents that no write of this
client touches, just those of the backend's own answer, in its order, field by field, with their update time; where a limit is reached,
those that come behind what is shown may lack. A view that stays from the cache must show a document that moved up in a limit, where a
write of this client took another one out. At any moment a snapshot that isn't from the cache must show the same of the answer at its
read time, which is worked out from what the backend had behind each write. Behind a kill the journal must have every commit that was
told, and the batches that are due.
"""
import json

from readers.journal_reader import get_files, read_pair, read_store
from readers.queries import read_target
from trials.streams.history import History, time_of
from trials.streams.random_targets import random_target
from trials.streams.random_writes import random_batch, random_condition, random_write_line
from trials.streams.sides import CODES, STREAMS, Difference, Run, change_in, document_differences, is_point, name_of

PATHS = ["rooms/a", "rooms/b", "rooms/c", "rooms/d", "rooms/\u00e9", "rooms/f", "rooms/a/chairs/a", "rooms/a/chairs/\u00e9"]
MOST_LISTENERS = 8
MOST_OPENINGS = 20  # of streams up to a quiet moment, before the streams are said to find no rest
REFUSED = 7  # the code by which the backend refuses what the rules don't allow
EVENTS = {"write": 22, "write_elsewhere": 22, "listen": 24, "unlisten": 4, "turn_watch": 10, "turn_write": 12, "timer": 2, "begin_anew": 2, "kill": 3}


class Listener:
    """A listener to a target; what it raised last, or None."""

    def __init__(self, target):
        self.target, self.snapshot = target, None

    def is_synced(self):
        return self.snapshot is not None and not self.snapshot["fromCache"]

    def is_full(self):
        """Whether it shows as many documents as its limit lets it."""
        limit = self.target.get("query", {}).get("structuredQuery", {}).get("limit")
        return limit is not None and len(self.snapshot["documents"]) >= limit

    def untouched(self, is_touched):
        """The documents that it shows and that aren't touched, by their names."""
        return {document["name"]: document for document in self.snapshot["documents"] if not is_touched(document["name"])}


class ListenerRun(Run):
    """One run, of so many events."""

    def __init__(self, words, link, folder, number, counts):
        super().__init__(words, link, folder, number, counts)
        self.out, self.is_open = {stream: [] for stream in STREAMS}, {stream: False for stream in STREAMS}  # as the program has them
        self.listeners, self.targets = {}, []
        self.committed, self.read, self.told = {}, -1, 0  # `committed`: by name, the time of the last commit of a batch on it
        self.history = History(link, list(map(self.name, PATHS)))

    # ---- what the program prints

    def feed(self, line):
        for printed in self.program.ask(line):
            self.take(printed, line)

    def take(self, printed, line):
        (kind, body), = printed.items()
        takers = {"ok": self.take_ok, "result": self.take_result, "rejected": self.take_rejected, "error": self.take_error,
                  "snapshot": self.take_snapshot, "send": self.take_send}
        if kind not in takers or kind in ("error", "snapshot") and body["id"] not in self.listeners:
            raise Difference("%s is answered by %s" % (json.dumps(line), json.dumps(printed)))
        self.told = max(self.told, body.get("commit", 0))
        takers[kind](body, line)

    def take_ok(self, body, line):
        if "batch" in body:
            self.enqueue(body["batch"], line["write"]["writes"])

    def take_result(self, body, _):
        self.settle(body["batch"], body["commitTime"])

    def take_rejected(self, body, _):
        self.settle(body["batch"])

    def settle(self, batch, commit=None):
        """The batch isn't pending any more: it was committed at that time, or rejected."""
        self.counts["batches committed" if commit else "batches rejected"] += 1
        for write in self.pending.pop(batch):
            if commit:
                self.committed[name_of(write)] = time_of(commit)

    def take_error(self, body, _):
        listener = self.listeners.pop(body["id"])
        self.counts["listeners refused"] += 1
        if "/secrets/" not in json.dumps(listener.target) or body["status"].get("code") != REFUSED:
            raise Difference("the listener to %s ends with %s" % (json.dumps(listener.target), body["status"]))

    def take_snapshot(self, body, _):
        listener = self.listeners[body["id"]]
        listener.snapshot = body
        for document in body["documents"]:
            self.known[document["name"]] = document.get("updateTime")
        if body["fromCache"]:
            self.counts["snapshots from the cache"] += 1
            return
        self.counts["snapshots compared at their read time"] += 1
        self.blame(body["id"], self.disagreement(listener, self.history.answer(listener.target, self.name(""), body["readTime"])))

    def take_send(self, body, _):
        stream = "watch" if "listen" in body else "write"
        self.out[stream].append({"send": body})
        if body.get("listen", {}).get("addTarget", {}).get("targetId", 0) % 2:
            self.counts["listens of documents in limbo"] += 1

    # ---- what is on its way

    def pass_on(self, stream):
        self.link.pass_on(stream, self.out[stream].pop(0))
        answers = self.link.coming[stream]
        if stream == "write" and answers and "commitTime" in answers[-1].get("written", {}):
            self.history.record(answers[-1]["written"]["commitTime"])

    def deliver(self, stream):
        line = self.link.coming[stream].pop(0)
        if "close" in line:
            self.counts["%s streams that the backend ended with code %d" % (stream, line["close"]["status"].get("code", 0))] += 1
            self.is_open[stream], self.out[stream] = False, []
        if is_point(line):
            self.read = max(self.read, time_of(change_in(line)["readTime"]))
        self.feed(line)

    def step(self):
        """One request or one line arrives; False where none is on its way."""
        ways = [(way, stream) for way, waiting in ((self.pass_on, self.out), (self.deliver, self.link.coming)) for stream in STREAMS if waiting[stream]]
        if ways:
            way, stream = self.chance.choice(ways)
            way(stream)
        return bool(ways)

    # ---- events

    def condition(self, name):
        return random_condition(self.chance, None if self.is_pending(name) else self.known.get(name)) if self.chance.random() < 0.15 else None

    def write_line(self):
        return random_write_line(self.chance, random_batch(self.chance, list(map(self.name, PATHS)), self.condition))

    def write(self):
        self.feed(self.write_line())

    def write_elsewhere(self):
        writes = random_batch(self.chance, list(map(self.name, PATHS)), lambda _: None)
        answer = self.link.commit(writes)
        if "responses" not in answer:
            raise Difference("another client writes %s, and is answered %s" % (json.dumps(writes), answer))
        self.history.record(answer["responses"][0]["commitTime"])
        self.counts["writes of another client"] += 1

    def new_target(self):
        """A target that breaks no rule of the program's and none of the backend's."""
        while True:
            target = random_target(self.chance, self.name("").rstrip("/"), PATHS)
            if read_target(target, self.name("")).broken_rule():
                self.counts["queries left out that break a rule here"] += 1
            elif "query" in target and "status" in self.link.call("runQuery", target["query"]):
                self.counts["queries left out that the backend refuses"] += 1
            else:
                self.targets.append(target)
                return target

    def listen(self):
        number = self.chance.randrange(MOST_LISTENERS)
        if number in self.listeners:
            self.unlisten(number)
        self.begin_listener(number, self.chance.choice(self.targets) if self.targets and self.chance.random() < 0.3 else self.new_target())

    def begin_listener(self, number, target):
        self.listeners[number] = Listener(target)
        self.counts["listeners"] += 1
        self.feed({"listen": {"id": number, "target": target}})

    def unlisten(self, number=None):
        if self.listeners:
            number = self.chance.choice(sorted(self.listeners)) if number is None else number
            del self.listeners[number]
            self.feed({"unlisten": {"id": number}})

    def turn_watch(self):
        self.turn("watch")

    def turn_write(self):
        self.turn("write")

    def turn(self, stream):
        """Closes the stream, or opens it."""
        if not self.is_open[stream]:
            self.open(stream)
            return
        self.cut(stream)
        self.counts["streams broken off"] += 1
        self.feed({"close": {"stream": stream, "status": {"code": self.chance.choice(CODES)}}})

    def open(self, stream):
        self.link.open(stream)
        self.is_open[stream] = True
        self.feed({"open": {"stream": stream}})

    def cut(self, stream):
        self.link.cut(stream)
        self.out[stream], self.is_open[stream] = [], False

    def timer(self):
        self.feed({"timer": {"name": "online"}})

    def begin_anew(self):
        """The program ends, and begins again with most of its listeners."""
        self.program.end()
        self.counts["programs begun again"] += 1
        self.begin_again()

    def begin_again(self):
        for stream in STREAMS:
            self.cut(stream)
        listeners, self.listeners = self.listeners, {}
        self.begin_program()
        for number, listener in sorted(listeners.items()):
            if self.chance.random() < 0.8:
                self.begin_listener(number, listener.target)

    def kill(self):
        """The program is killed with a line in its hands."""
        line = self.chance.choice([self.write_line()] + [self.link.coming[stream][0] for stream in STREAMS if self.link.coming[stream]])
        for printed in self.program.kill(line, self.chance.choice([0, 0.0005, 0.005])):
            if {"ok", "result", "rejected"} & set(printed):
                self.take(printed, line)
        self.counts["programs killed"] += 1
        self.check_journal(line)
        self.begin_again()

    def check_journal(self, line):
        """The journal must have what was told, and at most the commit of this line besides."""
        files = get_files(self.store)
        pair, store = read_pair(files), read_store(files)
        count = len(pair[3]) if pair[0] == "counts" else 0
        if store is None or count < self.told:
            raise Difference("%d commits were told, and the journal is %s with %d" % (self.told, pair[0], count))
        self.told, self.read = count, time_of(store.last_read) if store.last_read else -1
        due, found = sorted(self.pending), [batch[0] for batch in store.pending]
        if "write" in line and found == due + [self.last_batch + 1]:
            self.enqueue(found[-1], line["write"]["writes"])
        elif {"written", "close"} & set(line) and due and found == due[1:]:
            self.settle(due[0], line.get("written", {}).get("commitTime"))
        elif found != due:
            raise Difference("the batches %s are pending, and %s are due" % (found, due))

    # ---- quiet moments

    def is_touched(self, name):
        return self.is_pending(name) or self.committed.get(name, 0) > self.read

    def settle_down(self, with_writes):
        """All that is on its way arrives, on open streams."""
        for _ in range(MOST_OPENINGS):
            for stream in STREAMS if with_writes else STREAMS[:1]:
                if not self.is_open[stream]:
                    self.open(stream)
            while self.step():
                pass
            if self.is_open["watch"] and (self.is_open["write"] or not with_writes):
                return
        raise Difference("the streams find no rest")

    def answer(self, target):
        """The backend's own answer: its documents in order."""
        if "documents" in target:
            return [document for document in self.link.documents(target["documents"]["documents"]).values() if document]
        found = self.link.call("runQuery", target["query"])
        if "responses" not in found:
            raise Difference("%s is refused: %s" % (json.dumps(target), found))
        return [response["document"] for response in found["responses"] if "document" in response]

    def compare(self, number):
        """What is wrong with the view of a listener at a quiet moment, or None."""
        listener, answer = self.listeners[number], self.answer(self.listeners[number].target)
        if listener.is_synced():
            self.counts["views compared"] += 1
            return self.disagreement(listener, answer)
        names = {document["name"] for document in answer}
        in_limbo = [name for name in listener.untouched(self.is_touched) if name not in names] if listener.snapshot else []
        if not in_limbo or not listener.is_full() or not any(map(self.is_touched, names)):
            return "it stays from the cache, with %s in limbo" % in_limbo
        self.counts["views from the cache, a document moved up in a limit"] += 1
        return None

    def disagreement(self, listener, answer):
        """What is wrong with a view in step, beside the documents of the answer in their order; or None."""
        found, shown = {document["name"]: document for document in answer}, listener.untouched(self.is_touched)
        names = list(found)
        self.counts["documents compared"] += len(shown)
        if list(shown) != [name for name in names if name in shown]:
            return "it shows %s, and the backend has %s" % (list(shown), names)
        last = max(map(names.index, shown), default=-1)
        lacking = [name for place, name in enumerate(names)
                   if name not in shown and not self.is_touched(name) and (place < last or not listener.is_full())]
        if lacking:
            return "it lacks %s" % lacking
        return next(("%s: %s" % (name, wrong) for name in shown for wrong in document_differences(shown[name], found[name])), None)

    def blame(self, number, wrong):
        if wrong:
            self.wrong.append("the view of %s: %s" % (json.dumps(self.listeners[number].target), wrong))

    def quiet(self, with_writes):
        """A quiet moment. What differs is compared again where something came late."""
        self.settle_down(with_writes)
        self.counts["quiet moments"] += 1
        if self.is_open["write"] and self.pending:
            raise Difference("the batches %s are pending still" % sorted(self.pending))
        wrong = {number: self.compare(number) for number in sorted(self.listeners)}
        if any(wrong.values()):
            self.link.rest(2)
            if self.step():
                self.counts["quiet moments that were none yet"] += 1
                self.quiet(with_writes)
                return
        for number, what in wrong.items():
            self.blame(number, what)

    def whole(self, events):
        kinds, weights = zip(*EVENTS.items())
        for _ in range(events):
            getattr(self, self.chance.choices(kinds, weights)[0])()
            self.counts["events"] += 1
            for _ in range(self.chance.choice([0, 0, 1, 3, 10, 30])):
                self.step()
            if self.chance.random() < 0.1:
                self.quiet(self.chance.random() < 0.7)
        self.quiet(True)
