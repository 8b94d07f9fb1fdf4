"""The stream of listeners as another reader has it, by the description in docs/FORMATS.md alone: the faults of the messages that come on
it, the incarnations of targets that were asked for on it, and the documents in limbo that have listens of their own.

What an incarnation was told is worked out from the last message since its start that names a document. Names are whole ones. A token is
as it is printed; the empty text stands for none. An entry is {"fields": .., "version": ..} or {"missingSince": ..}, as a commit has it.
"""
from readers.effects import given, read_bytes, read_time, read_whole
from readers.faults import DEEPEST_VALUE, SHAPE, fields_faults, in_order, name_faults, read_over
from readers.queries import OneDocument, constant_faults, list_faults, whole_faults
from readers.store import moment
from readers.write_stream import known_value, status_faults, time_faults, token_faults

TARGET_CHANGES = ["NO_CHANGE", "ADD", "REMOVE", "CURRENT", "RESET"]
GREATEST_COUNT = 2**31 - 1
MOST_RUNNING = 100  # listens that documents in limbo may have beside each other


# ---- the faults of messages -----------------------------------------------------------------------------------------

def is_of_32_bits(tree, name):
    yield from whole_faults(tree, name, -2**31, 2**31 - 1)


def of_ids(name):
    return lambda tree: list_faults(tree, name, is_of_32_bits)


def of_time(name):
    return lambda tree: time_faults(tree, name)


def shown_faults(tree, front):
    """The faults of a document that a message shows."""
    if not isinstance(tree, dict):
        yield (SHAPE, "document")
        return
    readers = {"fields": lambda fields: fields_faults(fields, DEEPEST_VALUE, read_over), "name": lambda name: name_faults(name, "name", front),
               "updateTime": of_time("updateTime")}
    yield from in_order(tree, readers, ("name", "updateTime"), read_over)


def kinds_of_message(front):
    """The readers of the members of each kind of message, and those that it must have. Names stand behind the front."""
    gone = {"document": lambda name: name_faults(name, "document", front), "readTime": of_time("readTime"), "removedTargetIds": of_ids("removedTargetIds")}
    return {
        "targetChange": ({"cause": lambda status: status_faults(status, "cause"), "readTime": of_time("readTime"),
                          "resumeToken": lambda token: token_faults(token, "resumeToken"), "targetIds": of_ids("targetIds"),
                          "targetChangeType": lambda change: constant_faults(change, "targetChangeType", TARGET_CHANGES)}, ()),
        "documentChange": ({"document": lambda tree: shown_faults(tree, front), "removedTargetIds": of_ids("removedTargetIds"),
                            "targetIds": of_ids("targetIds")}, ("document",)),
        "documentDelete": (gone, ("document",)),
        "documentRemove": (gone, ("document",)),
        "filter": ({"count": lambda count: whole_faults(count, "count", 0, GREATEST_COUNT), "targetId": lambda number: is_of_32_bits(number, "targetId")}, ()),
    }


KINDS = tuple(kinds_of_message(""))


def kind_of(tree):
    """The one kind of a message, or None where it has none or several."""
    kinds = [kind for kind in KINDS if isinstance(tree, dict) and tree.get(kind) is not None]
    return kinds[0] if len(kinds) == 1 else None


def watch_faults(tree, front):
    """The faults of what came on the stream."""
    kind = kind_of(tree)
    if kind is None:
        yield (SHAPE, "watch")
    elif not isinstance(tree[kind], dict):
        yield (SHAPE, kind)
    else:
        yield from in_order(tree[kind], *kinds_of_message(front)[kind], read_over)


# ---- what a message says ----------------------------------------------------------------------------------------------

def number_in(tree, name):
    return 0 if tree.get(name) is None else read_whole(tree[name])


def ids_in(tree, name):
    return set(map(read_whole, tree.get(name) or []))


def time_in(tree, name):
    return None if tree.get(name) is None else read_time(tree[name])


def version_of(entry):
    return entry["version"] if "fields" in entry else entry["missingSince"]


class DocumentMessage:
    """A change, a delete or a remove of a document: its name, the targets that have it by now and those that it left, and the entry that it
    brings, or None."""

    def __init__(self, kind, tree):
        self.added, self.left = set(), ids_in(tree, "removedTargetIds")
        if kind == "documentChange":
            document = tree["document"]
            fields = {name: known_value(value) for name, value in given(document.get("fields") or {})}
            self.name, self.added = document["name"], ids_in(tree, "targetIds")
            self.entry = {"fields": fields, "version": read_time(document["updateTime"])}
        else:
            at = time_in(tree, "readTime")
            self.name, self.entry = tree["document"], {"missingSince": at} if kind == "documentDelete" and at is not None else None


class TargetMessage:
    """A change of targets; `ids` is None where it is of all."""

    def __init__(self, tree):
        self.change, self.ids, self.cause = tree.get("targetChangeType") or "NO_CHANGE", ids_in(tree, "targetIds") or None, tree.get("cause")
        self.token, self.at = read_bytes(tree.get("resumeToken") or ""), time_in(tree, "readTime")

    def names(self, number):
        return self.ids is None or number in self.ids

    def is_point(self):
        return self.at is not None and self.ids is None and self.change != "REMOVE"


# ---- incarnations -----------------------------------------------------------------------------------------------------

class Incarnation:
    """What one add request opened."""

    def __init__(self, target, keys):
        self.target, self.starting = target, frozenset(keys)
        self.is_wanted, self.has_ended = True, False
        self.first, self.named, self.is_current, self.token = None, {}, False, ""  # `first` is None up to the ADD from which it counts

    def is_asked(self):
        return self.is_wanted and not self.has_ended

    def start(self, names):
        self.first, self.named, self.is_current, self.token = names, {}, False, ""

    def told(self):
        """The names that it was told: those that were put in when they were named last, and those of the start that weren't named."""
        return {name for name, is_in in self.named.items() if is_in} | (self.first - set(self.named))


class WatchStream:
    """Whether it is open, the incarnations of each id, the oldest first, and what is buffered for the next point."""

    def __init__(self):
        self.is_open = False
        self.close()

    def open(self):
        self.is_open = True

    def close(self):
        self.is_open, self.incarnations, self.buffer = False, {}, {}

    def add(self, number, target, keys):
        self.incarnations.setdefault(number, []).append(Incarnation(target, keys))

    def remove(self, number):
        self.incarnations[number][-1].is_wanted = False

    def asked(self):
        """The ids whose newest incarnation has no remove request and hasn't ended."""
        return {number for number, opened in self.incarnations.items() if opened[-1].is_asked()}

    def live(self):
        """The live incarnations by their ids: the newest ones that are asked, where all older ones have ended."""
        return {number: opened[-1] for number, opened in self.incarnations.items()
                if opened[-1].is_asked() and all(older.has_ended for older in opened[:-1])}

    def counting(self):
        return {number: found for number, found in self.live().items() if found.first is not None}

    def misfit(self, message):
        """The member by which a change of targets doesn't fit, or None."""
        if message.change != "REMOVE":
            return None
        if message.ids is None:
            return "targetIds"
        return "cause" if message.cause is None and message.ids & set(self.live()) else None

    def change(self, message):
        """Takes a change of targets; gives the ids of the live incarnations that ended."""
        live, ended = {number: found for number, found in self.live().items() if message.names(number)}, set()
        if message.change == "ADD":
            for found in live.values():
                if found.first is None:
                    found.start(found.starting)
        elif message.change == "REMOVE":
            ended = set(live)
            for number in message.ids & set(self.incarnations):
                oldest = next((found for found in self.incarnations[number] if not found.has_ended), None)
                if oldest:
                    oldest.has_ended = True
        for number, found in self.counting().items():
            if number in live:
                if message.change == "RESET":
                    found.start(frozenset())
                found.is_current = found.is_current or message.change == "CURRENT"
                found.token = message.token or found.token
        return ended

    def document(self, message):
        """Takes a message of a document."""
        heard = [(number, found) for number, found in self.counting().items() if number in message.added | message.left]
        for number, found in heard:
            found.named[message.name] = number not in message.left
        if heard and message.entry is not None:
            old = self.buffer.get(message.name)
            if old is None or moment(version_of(message.entry)) >= moment(version_of(old)):
                self.buffer[message.name] = message.entry

    def settle_point(self):
        """Behind a point that is applied: nothing is buffered, and no token has come."""
        self.buffer = {}
        self.forget_tokens()

    def forget_tokens(self):
        for opened in self.incarnations.values():
            opened[-1].token = ""


# ---- documents in limbo -------------------------------------------------------------------------------------------------

class Limbo:
    """The listens of documents in limbo: the name of each that runs, by its odd id, and the names that wait."""

    def __init__(self, front):
        self.front, self.running, self.waiting, self.next = front, {}, [], 1

    def place(self, name):
        return [segment.encode() for segment in name[len(self.front):].split("/")]

    def want(self, names):
        """From now on just these names are in limbo."""
        self.running = {number: name for number, name in self.running.items() if name in names}
        kept = [name for name in self.waiting if name in names]
        new = names - set(self.running.values()) - set(kept)
        self.waiting = kept + sorted(new, key=self.place)
        while self.waiting and len(self.running) < MOST_RUNNING and self.next < 2**31:
            self.running[self.next] = self.waiting.pop(0)
            self.next += 2

    def targets(self):
        return {number: OneDocument(name, self.front) for number, name in self.running.items()}
