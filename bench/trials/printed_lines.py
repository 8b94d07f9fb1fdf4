"""What the program may print for damaged lines, by the form of what it prints and by what it has told before."""
import json
import re

from client import NAME_FRONT, get_line
from readers.queries import changes_between
from readers.store import moment
from readers.write_stream import MOST_OUTSTANDING, STREAMS
from trials.built_lines import DATABASE

LONGEST = 4194304
LAST_LISTENER = 2**32 - 1
CAUSES = {1: ("BadLine", {"member": str}), 2: ("BadName", {"fault": str, "name": str}), 3: ("Unsupported", {"member": str}), 4: ("TooDeep", {}),
          5: ("BadWrites", {"count": int}), 6: ("BadQuery", {"fault": int}), 7: ("ListenerTaken", {"id": int}), 8: ("NoListener", {"id": int}),
          9: ("StreamState", {"open": bool, "stream": str}), 10: ("BadMessage", {"member": str, "stream": str}), 11: ("LineTooLong", {})}
FAULTS = {"WrongRoot", "BadSegment", "OddLength", "BadPath", "ReservedField", 1, 2, 3, 4, 5, 6}


def items_of(text):
    """The lines of a text; a last one without a newline counts where it isn't empty."""
    lines = text.split(b"\n")
    return lines[:-1] if lines[-1] == b"" else lines


MARK = "none/m"  # no other line names such a document


def mark_line(number):
    return get_line(MARK + str(number))


def groups_of(output):
    """The printed lines, those of one input line together: they end where the document behind it is printed."""
    groups, front = [[]], ('{"document":{"exists":false,"name":"%s%s' % (NAME_FRONT, MARK)).encode()
    for line in items_of(output):
        if line.startswith(front):
            groups.append([])
        else:
            groups[-1].append(line)
    return groups


class Told:
    """What the printed lines of a run have told so far: commits, what each listener shows, None where it has shown nothing yet, and how the
    streams stand: whether each is open, None where that isn't known, and how many batches are outstanding at most."""

    def __init__(self):
        self.batches, self.targets, self.settled, self.listeners, self.last_read = 0, 0, 0, {}, None
        self.least, self.most = 0, 0  # how many commits there are
        self.is_open, self.outstanding = dict.fromkeys(STREAMS, False), 0

    def is_number(self, number, made):
        """Whether the store may have that number behind so many commits more; it has it from then on."""
        may_be = self.least + made <= number <= self.most + made
        self.least = self.most = number
        return may_be

    def is_due(self, body):
        """Whether an `ok` is one that may come; it is counted."""
        if "batch" in body:
            self.batches += 1
            return set(body) == {"batch", "commit"} and body["batch"] == self.batches and self.is_number(body["commit"], 1)
        listener = body.get("id")
        if "targetId" not in body:
            is_there = listener in self.listeners
            self.listeners.pop(listener, None)
            return is_there and set(body) == {"commit", "id"} and self.is_number(body["commit"], 0)
        is_new = body["targetId"] == 2 * self.targets + 2
        self.targets += is_new
        is_free = listener not in self.listeners and 0 <= listener <= LAST_LISTENER
        self.listeners[listener] = None
        return is_free and self.has_target(body["targetId"]) and set(body) == {"commit", "id", "targetId"} and self.is_number(body["commit"], is_new)

    def has_target(self, number):
        return number in range(2, 2 * self.targets + 1, 2)

    def is_settling(self, kind, body):
        """Whether a `result` or a `rejected` is one that may come; it is counted."""
        self.settled += 1
        is_known = self.is_open["write"] is not False and self.outstanding > 0 and self.settled <= self.batches
        self.is_open["write"], self.outstanding = kind == "result", self.outstanding - 1 if kind == "result" else 0
        rest = "commitTime" if kind == "result" else "status"
        return is_known and set(body) == {"batch", "commit", rest} and body["batch"] == self.settled and self.is_number(body["commit"], 1)

    def is_ending(self, body):
        """Whether an `error` is of a listener that is there; it is gone then."""
        is_there = body.get("id") in self.listeners
        self.listeners.pop(body.get("id"), None)
        return is_there and set(body) == {"id", "status"}

    def write_fault(self, body):
        """What is wrong with a request on the stream of writes, or None; it is counted."""
        if body == {"database": DATABASE}:
            self.is_open["write"], was_open = True, self.is_open["write"]
            self.outstanding = 0
            return "the stream was open" if was_open else None
        self.outstanding += 1
        if set(body) - {"streamToken"} != {"writes"} or not 1 <= len(body["writes"]) <= 500 or self.is_open["write"] is False:
            return "another request is due"
        return None if self.outstanding <= min(MOST_OUTSTANDING, self.batches - self.settled) else "more batches are outstanding than may be"

    def listen_fault(self, body):
        """What is wrong with a request on the stream of listeners, or None."""
        self.is_open["watch"] = True
        added = body.get("addTarget", {})
        number = added.get("targetId", body.get("removeTarget"))
        members = {"database", "addTarget" if added else "removeTarget"}
        inner = set(added) - {"targetId", "documents" if "documents" in added else "query"}
        if set(body) != members or body["database"] != DATABASE or inner not in (set(), {"expectedCount", "resumeToken"}):
            return "another request is due"
        return None if self.has_target(number) or number % 2 == 1 else "the target isn't known"

    def refuse(self, body):
        """What a refusal tells of a stream; whether it may come."""
        if body["number"] not in (9, 10):
            return True
        may_come = self.is_open[body["stream"]] in (None, body.get("open", True))
        self.is_open[body["stream"]] = body.get("open", False)
        return may_come

    def be_silent(self, line, requests):
        """Nothing but snapshots and requests may have come for the line; whether it is one of a stream, or the timer. It may have made a
        commit, and where no request tells otherwise, have opened or closed a stream."""
        self.most += 1
        if not requests and re.search(rb"open|close|\\u", line):
            self.is_open = dict.fromkeys(STREAMS)
        return re.search(rb"open|close|watch|written|timer|\\u", line) is not None

    def snapshot_fault(self, body):
        """What is wrong with a snapshot, or None; what it shows is kept."""
        if set(body) - {"readTime"} != {"changes", "commit", "documents", "fromCache", "id"} or not self.is_number(body["commit"], 0):
            return "other members are due"
        if not self.is_read(body.get("readTime"), body["fromCache"]):
            return "another read time is due"
        shown, was = (body["documents"], body["fromCache"]), self.listeners.get(body["id"])
        if body["id"] not in self.listeners or was == shown:
            return "there is no such listener, or it has shown this"
        self.listeners[body["id"]] = shown
        return None if body["changes"] == changes_between(was[0] if was else [], shown[0]) else "other changes are due"

    def is_read(self, at, from_cache):
        """Whether the last read time may be this one, or None; it is from then on."""
        if at is None:
            return self.last_read is None and from_cache is True
        is_later = self.last_read is None or moment(at) >= moment(self.last_read)
        self.last_read = at
        return is_later and isinstance(from_cache, bool)


def refusal_fault(number, body):
    cause, besides = CAUSES.get(body.get("number"), (None, {}))
    if cause is None or cause != body.get("cause") or body.get("line") != number:
        return "a refusal with a known number and the line's number is due"
    if set(body) != {"cause", "line", "number"} | set(besides) or not all(isinstance(body[name], kind) for name, kind in besides.items()):
        return "the refusal has other members"
    return None if body.get("fault", 1) in FAULTS else "a known fault is due"


def answer_fault(number, line, answer, told):
    """What is wrong with the answer of a line, or None."""
    (kind, body), = answer.items()
    if (len(line) > LONGEST) != (kind == "refused" and body.get("number") == 11):
        return "the line has %d bytes" % len(line)
    if kind == "ok":
        return None if told.is_due(body) else "other numbers are due"
    if kind in ("result", "rejected"):
        return None if told.is_settling(kind, body) else "another one is due"
    if kind == "error":
        return None if told.is_ending(body) else "there is no such listener"
    if kind == "document":
        return None if {"exists", "name", "state"} <= set(body) <= {"exists", "fields", "name", "state", "updateTime"} else "other members are due"
    if kind != "refused":
        return "an answer is due"
    return refusal_fault(number, body) or (None if told.refuse(body) else "the stream is told otherwise")


def is_request(printed, stream):
    return stream in printed.get("send", {})


def are_ordered(answers, snapshots, listens):
    """Whether an answer is one or a row of errors, and errors, snapshots and requests of listeners come in their order."""
    errors = [each["error"]["id"] for each in answers if "error" in each]
    ids = [each["snapshot"]["id"] for each in snapshots]
    numbers = [each["addTarget"]["targetId"] if "addTarget" in each else each["removeTarget"] for each in listens]
    keys = [("addTarget" in each, "addTarget" in each and number % 2, number) for each, number in zip(listens, numbers)]
    return (len(answers) <= 1 or len(errors) == len(answers)) and all(each == sorted(set(each)) for each in (errors, ids, keys))


def fault_of(number, line, group, told):
    """What is wrong with what is printed for a line, or None."""
    try:
        printed = list(map(json.loads, group))
        snapshots = [each for each in printed if "snapshot" in each]
        listens, writes = ([each for each in printed if is_request(each, name)] for name in ("listen", "write"))
        answers = [each for each in printed if not {"send", "snapshot"} & set(each)]
        if printed != answers + snapshots + listens + writes or not are_ordered(answers, snapshots, [each["send"]["listen"] for each in listens]):
            return "other lines are due, or in another order"
        if (not answers or "error" in answers[0]) and not told.be_silent(line, listens + writes):
            return "an answer is due"
        if snapshots and answers and ("document" in answers[0] or answers[0].get("refused", {}).get("number", 10) != 10):
            return "no snapshot is due"
        faults = [answer_fault(number, line, answer, told) for answer in answers]
        faults += [told.snapshot_fault(each["snapshot"]) for each in snapshots]
        faults += [told.listen_fault(each["send"]["listen"]) for each in listens] + [told.write_fault(each["send"]["write"]) for each in writes]
    except (ValueError, KeyError, TypeError, AttributeError):
        return "it isn't of a known form"
    return next(filter(None, faults), None)


def what_is(printed):
    """What is counted of a printed line."""
    (kind, body), = json.loads(printed).items()
    return kind + (" in step" if body.get("fromCache") is False else "")
