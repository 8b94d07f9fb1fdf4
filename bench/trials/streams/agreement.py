"""Whether what was heard is what an honest backend tells, and whether synced snapshots agree with it, by *Follows*, *Touched* and *Agrees*
of the definitions. The points of *Follows* are named by their numbers.

It reads lines with what was printed for each, and the backend's writes, and shares nothing with the backend. What a client knows of a
document is here its version, the commit time where it was acknowledged, and whether it was seen that there is none.
"""
import collections
import json

from readers.effects import stored_fields
from readers.store import moment, name_of
from readers.watch_stream import DocumentMessage, TargetMessage, kind_of, number_in, version_of
from trials.streams.transcript import BEGINNING, Incarnation, Target, Transcript, World


def plain(name):
    return name.partition("/documents/")[2]


def listed(names):
    return ", ".join(map(plain, sorted(names)))


class Filtered:
    """A filter: the names told then, its count, the time of the point before it, and that of the point behind it, or None."""

    def __init__(self, target, told, count, last):
        self.target, self.told, self.count, self.last, self.next, self.stale = target, told, count, last, None, set()

    def is_honest(self, world):
        """Whether there is a time of which it speaks: all of that answer was told, it is as long as the count says, and nothing in it was
        found to be stale later."""
        for version in world.versions(self.last, self.next):
            answer = world.answer(self.target, version)
            if len(answer) == self.count and set(answer) <= self.told and not self.stale & set(answer):
                return True
        return False


class Follows:
    """What was heard, and the faults in it."""

    def __init__(self, world, fail, counts):
        self.world, self.fail, self.counts, self.transcript = world, fail, counts, Transcript()
        self.tuples = {}  # by token and target: the version and the names told then
        self.filters = []  # of the stream that is open, those that no point has come behind
        self.last, self.latest = BEGINNING, BEGINNING

    def cut(self):
        self.judge(None)
        self.transcript.cut()
        self.last, self.latest = BEGINNING, BEGINNING

    def ask(self, number, tree, target):
        """An add request is sent. The names that it starts with are those of its token."""
        token = tree.get("resumeToken")
        if token is None:
            self.transcript.add(number, Incarnation(target, (), None))
            return
        self.counts["add requests with a token"] += 1
        if (token, target.text) not in self.tuples:
            self.fail("3: target %d goes on from the token %s, which wasn't given" % (number, token))
        version, names = self.tuples.get((token, target.text), (BEGINNING, frozenset()))
        if tree.get("expectedCount") != len(names):
            self.fail("target %d expects %s documents, and was told %d" % (number, tree.get("expectedCount"), len(names)))
        self.transcript.add(number, Incarnation(target, names, version))

    def document(self, message):
        """A message of a document came; gives whether anybody heeds it."""
        if message.entry is not None:
            version = moment(version_of(message.entry))
            found, self.latest = self.world.document(message.name, version), max(self.latest, version)
            is_so = found is None
            if "fields" in message.entry:
                is_so = found is not None and found[1] == version and stored_fields(message.entry["fields"]) == found[0]
            if not is_so:
                self.fail("2: %s wasn't so at %s" % (plain(message.name), version))
        return self.transcript.document(message)

    def filter(self, number, count):
        found = self.transcript.counting().get(number)
        if found is not None:
            self.counts["filters"] += 1
            told = found.told()
            self.counts["filters with another count"] += len(told) != count
            found.filtered = Filtered(found.target, told, count, self.last)
            self.filters.append(found.filtered)

    def judge(self, time):
        """The point behind the filters, at that time, or the end of the stream."""
        for each in self.filters:
            each.next = time
            self.judge_filter(each)
        self.filters = []

    def judge_filter(self, found):
        if not found.is_honest(self.world):
            self.fail("5: a filter by %d for %s speaks of no time" % (found.count, found.target.text))

    def change(self, message):
        """A change of targets came; gives the ids of the live incarnations that ended."""
        ended = self.transcript.change(message)
        if message.is_point():
            self.point(moment(message.at))
        return ended

    def point(self, time):
        self.counts["points"] += 1
        if self.latest > time:
            self.fail("2: a document of %s is told before the point %s" % (self.latest, time))
        if self.last > time:
            self.fail("1: the points fall to %s" % (time,))
        self.judge(time)
        self.last, self.latest = time, BEGINNING
        for number, found in self.transcript.counting().items():
            answer, told = self.world.answer(found.target, time), found.told()
            self.counts["targets at points"] += 1
            self.nothing_else(number, found, told - set(answer), time)
            if found.is_current:
                self.counts["targets at points, current"] += 1
                self.all_told(number, found, told, answer, time)
                self.take_token(number, found, told, time)

    def nothing_else(self, number, found, others, time):
        """5 and 6: names that were told and are outside the answer were so at the last filter."""
        if not others:
            return
        filtered = found.filtered
        if filtered is None or not others <= filtered.told:
            self.fail("6: target %d was told %s, outside its answer at %s" % (number, listed(others), time))
        else:
            self.counts["targets at points, with what a filter was to show"] += 1
            filtered.stale |= others
            self.judge_filter(filtered)

    def all_told(self, number, found, told, answer, time):
        """4: the answer is told, each document as it is."""
        if not set(answer) <= told:
            self.fail("4: target %d wasn't told %s at %s" % (number, listed(set(answer) - told), time))
        resumed = self.world.answer(found.target, found.version) if found.at_add and found.version is not None else {}
        old = [name for name, update in answer.items() if (found.news[name] if name in found.news else resumed.get(name)) != update]
        if old:
            self.fail("4: target %d has older documents at %s: %s" % (number, time, listed(old)))

    def take_token(self, number, found, told, time):
        """3: a token of a target is given for one point."""
        if found.token:
            due = time, frozenset(told)
            self.counts["tokens"] += 1
            if self.tuples.setdefault((found.token, found.target.text), due) != due:
                self.fail("3: the token %s of target %d comes for two points" % (found.token, number))

    def acknowledge(self, name, version, commit):
        """7: the version of an acknowledged name is a true one."""
        self.counts["acknowledged documents"] += 1
        if not self.world.is_true_version(name, version) or version > commit:
            self.fail("7: %s has no version %s" % (plain(name), version))


# ---- what is known of documents ---------------------------------------------------------------------------------------

Entry = collections.namedtuple("Entry", "version commit is_missing")


class Known:
    """The entries, what waits for a point, the last read time, and the pending batches."""

    def __init__(self):
        self.entries, self.buffer, self.read, self.pending = {}, {}, None, {}

    def wait(self, name, entry):
        new = Entry(moment(version_of(entry)), None, "fields" not in entry)
        if name not in self.buffer or self.buffer[name].version <= new.version:
            self.buffer[name] = new

    def see(self, name, new):
        old = self.entries.get(name)
        if old is None or old.version < new.version or old.version == new.version and old.commit is not None:
            self.entries[name] = new

    def point(self, time, counting):
        """A point came, with these incarnations; one below the last is ignored."""
        if self.read is not None and time < self.read:
            return
        for name, entry in self.buffer.items():
            self.see(name, entry)
        for found in counting.values():
            name = found.target.only
            if found.is_current and name is not None and name not in found.told():
                if not (name in self.entries and self.entries[name].is_missing):
                    self.see(name, Entry(time, None, True))
        self.read, self.buffer = time, {}

    def acknowledge(self, name, version, commit):
        if name not in self.entries or self.entries[name].version < version:
            self.entries[name] = Entry(version, commit, False)

    def is_pending(self, name):
        return any(name in names for names in self.pending.values())

    def is_touched(self, name):
        """A pending write names it, or its entry is of an acknowledged write with a commit time above the last read time."""
        commit = self.entries[name].commit if name in self.entries else None
        return self.is_pending(name) or commit is not None and (self.read is None or commit > self.read)

    def state(self, name):
        """What is printed of a document that is there."""
        if self.is_pending(name) or name not in self.entries:
            return "pending" if self.is_pending(name) else "unknown"
        return "committed" if self.entries[name].commit is not None else "synced"


# ---- agreement ------------------------------------------------------------------------------------------------------------

class Agreement:
    """A run over an empty store, against the backend's writes. `faults` has what isn't so."""

    def __init__(self, writes, front):
        self.front, self.faults, self.counts, self.number, self.line = front, [], collections.Counter(), 0, None
        self.world, self.known = World(writes), Known()
        self.follows = Follows(self.world, self.fail, self.counts)
        self.listeners, self.limbo, self.targets = {}, {}, {}  # `limbo`: the names of odd ids

    def fail(self, what):
        self.faults.append("line %d, %s: %s" % (self.number, json.dumps(self.line)[:300], what))

    def target(self, tree):
        """The target of a tree; equal trees share one."""
        text = json.dumps(tree, sort_keys=True)
        if text not in self.targets:
            self.targets[text] = Target(tree, self.front)
        return self.targets[text]

    def take_all(self, steps):
        for line, printed in steps:
            self.number, self.line = self.number + 1, line
            self.take(line, printed)
        self.follows.judge(None)

    def take(self, line, printed):
        (kind, inner), = line.items()
        if kind == "watch":
            self.hear(inner)
        elif kind == "restart" or kind in ("open", "close") and inner["stream"] == "watch":
            self.follows.cut()
            self.known.buffer = {}
            self.listeners = {} if kind == "restart" else self.listeners
        elif kind == "listen":
            self.listeners[inner.get("id", 0)] = self.target(inner["target"])
        elif kind == "unlisten":
            del self.listeners[inner.get("id", 0)]
        takers = {"ok": self.take_ok, "result": self.take_result, "rejected": self.take_rejected, "error": self.take_error,
                  "snapshot": self.take_snapshot, "send": self.take_send, "document": lambda body, inner: None}
        for each in printed:
            (what, body), = each.items()
            takers[what](body, inner)

    def hear(self, tree):
        kind = kind_of(tree)
        self.counts["heard: " + (tree[kind].get("targetChangeType", "NO_CHANGE") if kind == "targetChange" else kind)] += 1
        if kind == "filter":
            self.follows.filter(number_in(tree[kind], "targetId"), number_in(tree[kind], "count"))
        elif kind == "targetChange":
            self.hear_change(TargetMessage(tree[kind]))
        else:
            message = DocumentMessage(kind, tree[kind])
            if self.follows.document(message) and message.entry is not None:
                self.known.wait(message.name, message.entry)

    def hear_change(self, message):
        for number in self.follows.change(message):
            if number % 2:
                self.counts["documents dropped"] += self.known.entries.pop(self.limbo[number], None) is not None
        if message.is_point():
            self.counts["points that are ignored"] += self.known.read is not None and moment(message.at) < self.known.read
            self.known.point(moment(message.at), self.follows.transcript.counting())
            self.follows.transcript.forget_tokens()

    def take_ok(self, body, line):
        if "batch" in body:
            self.known.pending[body["batch"]] = list(map(name_of, line["writes"]))

    def take_result(self, body, message):
        """The first pending batch is answered; of each name the greatest version counts."""
        names, commit, versions = self.known.pending.pop(body["batch"]), moment(message["commitTime"]), {}
        for name, result in zip(names, message["writeResults"]):
            version = moment(result["updateTime"]) if "updateTime" in result else commit
            versions[name] = max(version, versions.get(name, version))
        for name, version in versions.items():
            self.follows.acknowledge(name, version, commit)
            self.known.acknowledge(name, version, commit)

    def take_rejected(self, body, _):
        self.counts["rejected batches"] += 1
        del self.known.pending[body["batch"]]

    def take_error(self, body, _):
        self.counts["refused listeners"] += 1
        del self.listeners[body["id"]]

    def take_send(self, body, _):
        asked = body.get("listen", {})
        if "removeTarget" in asked:
            self.follows.transcript.remove(asked["removeTarget"])
        elif asked:
            tree = asked["addTarget"]
            number, target = tree["targetId"], self.target({name: tree[name] for name in ("documents", "query") if name in tree})
            self.counts["add requests of documents in limbo" if number % 2 else "add requests"] += 1
            self.follows.ask(number, tree, target)
            self.limbo.update({number: target.only} if number % 2 else {})

    # ---- snapshots

    def take_snapshot(self, body, _):
        self.counts["snapshots"] += 1
        shown = {document["name"]: document for document in body["documents"]}
        for name, document in shown.items():
            if document["state"] != self.known.state(name):
                self.fail("%s is printed as %s, and is %s" % (plain(name), document["state"], self.known.state(name)))
        if not body["fromCache"]:
            self.counts["synced snapshots"] += 1
            self.synced(self.listeners[body["id"]], shown, body)

    def synced(self, target, shown, body):
        """A snapshot that isn't from the cache agrees with the backend's documents at its read time."""
        time = moment(body["readTime"]) if "readTime" in body else None
        if time is None or time != self.known.read:
            self.fail("a synced snapshot has the read time %s, and the last point %s" % (time, self.known.read))
            return
        answer = self.world.answer(target, time)
        for name, document in shown.items():
            if self.known.is_touched(name):
                self.counts["shown documents that are touched"] += 1
            else:
                self.counts["shown documents compared"] += 1
                self.true_shown(name, document, answer, time)
        self.all_shown(target, shown, answer, time)

    def true_shown(self, name, document, answer, time):
        found, update = self.world.document(name, time), document.get("updateTime")
        if name not in answer:
            self.fail("AGREES: %s is shown, and isn't in the answer at %s" % (plain(name), time))
        elif update is None or moment(update) != found[1] or stored_fields(document.get("fields", {})) != found[0]:
            self.fail("AGREES: %s is shown as %s, and was %s at %s" % (plain(name), json.dumps(document), json.dumps(found), time))

    def all_shown(self, target, shown, answer, time):
        """What is in the answer and untouched is shown, or as many as the limit come before it."""
        lacking = [name for name in answer if name not in shown and not self.known.is_touched(name)]
        if not lacking:
            return
        rows = [target.row_of(name, stored_fields(document.get("fields", {}))) for name, document in shown.items()]
        for name in lacking:
            row = target.row_of(name, self.world.document(name, time)[0])
            if target.limit is None or target.earlier(row, rows) < target.limit:
                self.fail("AGREES: %s isn't shown, and is in the answer at %s" % (plain(name), time))
            else:
                self.counts["documents past a limit"] += 1
