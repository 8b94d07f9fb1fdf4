"""A run of the stream of writes: batches are sent, sent again and rejected, and the documents of both sides are compared.

After each `result` the documents of its batch on which no write is pending are asked for on both sides, and must be the same, field by
field, with their update time; at the end of the run all are. In half of the runs writes have preconditions, some of which don't hold,
so that the backend ends the stream and the batch is rejected; in the other half the stream is closed, or the program ended and begun
again, while batches are outstanding, so that they are sent again: either the requests were lost, or the answers. Where answers were
lost, a write is applied twice, and the second time, since it changes nothing, its version is that of the first; the rules leave such an
entry as it is, so a document of these batches isn't compared until it is deleted.
"""
import json

from trials.streams.random_writes import random_batch, random_condition, random_write_line
from trials.streams.sides import CODES, Difference, Run, document_differences, name_of

PATHS = ["rooms/a", "rooms/b", "rooms/\u00e9", "rooms/a/chairs/c"]


class BatchRun(Run):
    """One run, of so many batches. Requests are lost where it is losing."""

    def __init__(self, words, link, folder, number, counts):
        super().__init__(words, link, folder, number, counts)
        self.has_conditions, self.is_open, self.is_losing = number % 2 == 0, False, False
        self.doubtful = {}  # the documents of batches that were perhaps applied twice, and the last batch by then

    def feed(self, line):
        """Gives the program a line; what it sends goes to the backend, and results are compared."""
        for printed in self.program.ask(line):
            (kind, body), = printed.items()
            if kind == "send":
                if not self.is_losing:
                    self.link.send(printed)
            elif kind == "ok":
                self.enqueue(body["batch"], line["write"]["writes"])
            elif kind in ("result", "rejected"):
                self.counts[kind if kind == "result" else "rejected with code %d" % body["status"]["code"]] += 1
                self.settle(body["batch"], kind == "result")
            else:
                raise Difference("%s is answered by %s" % (json.dumps(line), json.dumps(printed)))

    def settle(self, batch, is_result):
        writes = self.pending.pop(batch)
        if not is_result:
            return
        for write in writes:
            if "delete" in write and self.doubtful.get(write["delete"], batch) < batch:
                del self.doubtful[write["delete"]]
        self.compare(sorted(set(map(name_of, writes))), writes)

    def compare(self, names, writes):
        """Asks both sides for the documents on which nothing is pending, and that weren't perhaps written twice."""
        names = [name for name in names if not self.is_pending(name) and name not in self.doubtful]
        if not names:
            return
        found = self.link.documents(names)
        for name in names:
            (shown,) = self.program.ask({"get": {"name": name}})
            self.counts["documents"] += 1
            self.known[name] = shown["document"].get("updateTime")
            wrong = document_differences(shown["document"], found[name])
            if wrong:
                self.wrong.append("%s: %s; the last batch: %s" % (name, wrong, json.dumps(writes)))

    def open(self):
        self.link.open("write")
        self.is_open = True
        self.feed({"open": {"stream": "write"}})
        self.deliver()

    def deliver(self):
        """The next line of the stream comes in."""
        coming = self.link.coming["write"]
        if not coming:
            self.link.wait(lambda _: bool(coming))
        line = coming.pop(0)
        if "close" in line:
            self.is_open = False
        self.feed(line)

    def break_off(self):
        """The stream is closed on this side, sometimes by the program's end; answers that are on their way are lost."""
        if not self.is_losing:
            self.doubtful.update({name_of(write): self.last_batch for writes in self.pending.values() for write in writes})
        self.link.cut("write")
        self.is_open, self.is_losing = False, False
        if self.chance.random() < 0.3:
            self.program.end()
            self.begin_program()
            self.counts["programs begun again"] += 1
        else:
            self.feed({"close": {"stream": "write", "status": {"code": self.chance.choice(CODES)}}})
        self.counts["streams broken off"] += 1

    def condition(self, name):
        if not self.has_conditions or self.chance.random() > 0.3:
            return None
        return random_condition(self.chance, None if self.is_pending(name) else self.known.get(name))

    def write(self):
        self.feed(random_write_line(self.chance, random_batch(self.chance, list(map(self.name, PATHS)), self.condition)))

    def step(self):
        kind = self.chance.random()
        if not self.is_open and kind < 0.4:
            self.open()
        elif self.is_losing and kind < 0.2:
            self.break_off()
        elif self.is_open and self.pending and not self.is_losing and kind < 0.4:
            self.deliver()
        elif self.is_open and kind > 0.95 and not (self.has_conditions and self.pending):
            self.break_off()
        elif self.is_open and kind > 0.9 and not self.pending:
            self.is_losing = True
        else:
            self.write()

    def whole(self, batches):
        while self.last_batch < batches:
            self.step()
        if self.is_losing:
            self.break_off()
        for _ in range(20 * batches):
            if not self.pending:
                break
            self.deliver() if self.is_open else self.open()
        if self.pending:
            raise Difference("%d batches are pending still" % len(self.pending))
        self.compare([self.name(path) for path in PATHS], [])
