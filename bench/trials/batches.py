"""What the trials of crashes share: numbered commits, and what must be found of them. Of every eight commits four are batches, two
acknowledge the first pending batch, one rejects it, and one gives a target its id. Batch b leaves the number b in the one field of one
of 40 documents, by writes of one kind or another, until it is rejected."""
import json
import os
import subprocess

from client import NAME_FRONT, get_line, run_lines
from readers.commits import read_commit
from readers.journal_reader import get_files, read_pair
from readers.queries import read_target
from readers.store import after_pending, name_of, transforms_of
from readers.write_stream import MOST_OUTSTANDING, printed_write

DOCUMENTS = 40
BATCH, RESULT, TARGET, REJECTION = "Enqueue", "Acknowledge", "Allocate", "Reject"
TURN = [BATCH, BATCH, RESULT, TARGET, BATCH, REJECTION, BATCH, RESULT]
DATABASE = NAME_FRONT[:-len("/documents/")]
CODE = 9
TOKEN = "AQ=="


def kind_of(commit):
    return TURN[(commit - 1) % len(TURN)]


def count_of(commit, *kinds):
    """How many of the first commits, so many, are of these kinds."""
    turns, rest = divmod(commit, len(TURN))
    return turns * sum(map(TURN.count, kinds)) + sum(kind in kinds for kind in TURN[:rest])


def batch_of(commit):
    """The last batch of the first commits, so many."""
    return count_of(commit, BATCH)


def settled_of(commit):
    """The last batch that isn't pending any more behind the first commits, so many; batches go in their order."""
    return count_of(commit, RESULT, REJECTION)


def target_id_of(commit):
    return 2 * count_of(commit, TARGET)


def is_rejected(batch):
    """Whether the batch is rejected where it goes."""
    settling = [kind for kind in TURN if kind in (RESULT, REJECTION)]
    return settling[(batch - 1) % len(settling)] == REJECTION


def path_of(batch):
    return "rooms/d%d" % (batch % DOCUMENTS)


def writes_of(name, number):
    """Writes that leave the number, in a document that has no greater one: an update whole or masked, behind a delete, or a transform."""
    update = {"update": {"name": name, "fields": {"n": {"integerValue": str(number)}}}}
    if number % 4 == 1:
        return [{**update, "updateMask": {"fieldPaths": ["n"]}}]
    if number % 4 == 2:
        return [{"delete": name}, update]
    if number % 4 == 3:
        transform = {"fieldPath": "n", "maximum": {"integerValue": str(number)}}
        return [{"update": {"name": name}, "updateMask": {"fieldPaths": []}, "updateTransforms": [transform]}]
    return [update]


def spelled_line(line):
    return json.dumps(line, separators=(",", ":")).encode() + b"\n"


def batch_line(path, number):
    """A line that leaves the number in the document's one field."""
    return spelled_line({"write": {"at": "2024-05-01T00:00:01Z", "writes": writes_of(NAME_FRONT + path, number)}})


def target_of(commit):
    """The target of that commit: the last three documents, of those that a batch from the last but two on has written."""
    where = {"fieldFilter": {"field": {"fieldPath": "n"}, "op": "GREATER_THAN_OR_EQUAL", "value": {"integerValue": str(batch_of(commit) - 2)}}}
    orders = [{"field": {"fieldPath": "n"}, "direction": "DESCENDING"}]
    query = {"from": [{"collectionId": "rooms"}], "where": where, "orderBy": orders, "limit": 3}
    return {"query": {"parent": NAME_FRONT[:-1], "structuredQuery": query}}


def time_of(batch):
    """The time at which the batch is acknowledged."""
    return "2024-05-%02dT%02d:%02d:%02dZ" % (2 + batch // 86400, batch // 3600 % 24, batch // 60 % 60, batch % 60)


def result_line(batch):
    """The acknowledgement of the batch: its transforms return its number."""
    results = [{"transformResults": [{"integerValue": str(batch)} for _ in transforms_of(write)]} for write in writes_of(NAME_FRONT + path_of(batch), batch)]
    return spelled_line({"written": {"commitTime": time_of(batch), "streamToken": TOKEN, "writeResults": results}})


def listen_line(commit):
    return spelled_line({"listen": {"id": commit, "target": target_of(commit)}})


def due_ok_of_listen(commit, number):
    """The answer to the listener of that commit's target, where the store has so many commits."""
    return {"ok": {"commit": number, "id": commit, "targetId": target_id_of(commit)}}


def due_request(batch):
    writes = list(map(printed_write, writes_of(NAME_FRONT + path_of(batch), batch)))
    return {"send": {"write": {"streamToken": TOKEN, "writes": writes}}}


class Asked:
    """The lines of a run that goes on behind so many commits, each with what is due for it but for snapshots."""

    def __init__(self, commits):
        self.commits, self.sent, self.listener = commits, None, None

    def requests(self):
        """The requests that go out now: `sent` is the last batch that has gone out on the stream."""
        last = min(batch_of(self.commits), settled_of(self.commits) + MOST_OUTSTANDING)
        first, self.sent = self.sent + 1, max(last, self.sent)
        return list(map(due_request, range(first, last + 1)))

    def opening(self):
        """The stream is opened, and its handshake comes."""
        yield spelled_line({"open": {"stream": "write"}}), [{"send": {"write": {"database": DATABASE}}}]
        self.sent = settled_of(self.commits)
        yield spelled_line({"written": {"streamToken": TOKEN}}), self.requests()

    def batch(self, number):
        yield batch_line(path_of(number), number), [{"ok": {"batch": number, "commit": self.commits}}] + self.requests()

    def result(self, number):
        due = {"result": {"batch": number, "commit": self.commits, "commitTime": time_of(number)}}
        yield result_line(number), [due] + self.requests()

    def rejection(self, number):
        due = {"rejected": {"batch": number, "commit": self.commits, "status": {"code": CODE}}}
        yield spelled_line({"close": {"stream": "write", "status": {"code": CODE}}}), [due]
        yield from self.opening()

    def target(self):
        """There is one listener behind each target."""
        yield listen_line(self.commits), [due_ok_of_listen(self.commits, self.commits)]
        if self.listener is not None:
            yield spelled_line({"unlisten": {"id": self.listener}}), [{"ok": {"commit": self.commits, "id": self.listener}}]
        self.listener = self.commits

    def next(self):
        self.commits += 1
        kind = kind_of(self.commits)
        if kind == TARGET:
            return self.target()
        if kind == BATCH:
            return self.batch(batch_of(self.commits))
        return (self.result if kind == RESULT else self.rejection)(settled_of(self.commits))


def commit_lines(first, count):
    """The lines that make so many commits from the first on, each with its answers."""
    asked = Asked(first - 1)
    yield from asked.opening()
    for _ in range(count):
        yield from asked.next()


def told_by(line):
    """The number of commits that a printed line tells of, or 0."""
    (_, body), = json.loads(line).items()
    return body.get("commit", 0)


def is_sent(batch, writes):
    """Whether the writes are those of the batch: they leave the batch's number in its document, and name no other."""
    document = {"n": {"integerValue": "0"}}, None
    for write in writes:
        document = after_pending(document, write, "")
    return {name_of(write) for write in writes} == {path_of(batch)} and document and document[0] == {"n": {"integerValue": str(batch)}}


def is_made(number, kind, members):
    """Whether the journal's commit of that number is what was asked for."""
    if kind != kind_of(number):
        return False
    if kind == TARGET:
        return members == (target_id_of(number), read_target(target_of(number), NAME_FRONT).spelled())
    if kind == BATCH:
        return members[0] == batch_of(number) and is_sent(members[0], members[2])
    return members[0] == settled_of(number) and (kind == REJECTION or members[1] == time_of(members[0]))


def check_journal(store):
    """How many commits the journal has; they must be 1 and so on, each as it was asked for."""
    found = read_pair(get_files(store))
    if found[0] == "blank":
        return 0
    if found[0] != "counts" or found[2] != 1:
        raise AssertionError("the files give %s" % (found[:3],))
    for number, payload in enumerate(found[3], 1):
        kind, members = read_commit(payload)
        if not is_made(number, kind, members):
            raise AssertionError("record %d is %s: %s" % (number, kind, members))
    return len(found[3])


def shown_of(document, commits):
    """What a get of the document shows behind the first commits, so many: its number, or 0 where it isn't there, and its state."""
    settled = settled_of(commits)
    batches = [batch for batch in range(document or DOCUMENTS, batch_of(commits) + 1, DOCUMENTS) if batch > settled or not is_rejected(batch)]
    if not batches:
        return 0, "unknown"
    return batches[-1], "pending" if batches[-1] > settled else "committed"


def check_reopened(program, store, commits):
    """A second run must show each document as its batches left it, know its targets, and go on counting and sending."""
    status, output = run_lines(program, store, [get_line(path_of(number)) for number in range(DOCUMENTS)])
    if status != 0:
        raise AssertionError("the second run ends with status %d" % status)
    answers = [json.loads(line)["document"] for line in output.splitlines()]
    for number, answer in enumerate(answers):
        shown = int(answer["fields"]["n"]["integerValue"]) if answer["exists"] else 0
        if (shown, answer["state"]) != shown_of(number, commits):
            raise AssertionError("%s shows %d, %s, and %s is due" % (path_of(number), shown, answer["state"], shown_of(number, commits)))
    if len(answers) != DOCUMENTS:
        raise AssertionError("%d answers to %d gets" % (len(answers), DOCUMENTS))
    targets = [commit for commit in range(1, commits + 1) if kind_of(commit) == TARGET][-2:]
    lines = [(listen_line(commit), [due_ok_of_listen(commit, commits)]) for commit in targets] + list(commit_lines(commits + 1, 1))
    status, output = run_lines(program, store, [line for line, _ in lines])
    answers = [line for line in map(json.loads, output.splitlines()) if "snapshot" not in line]
    if status != 0 or answers != [answer for _, due in lines for answer in due]:
        raise AssertionError("the last targets and the next commit answer %r, status %d" % (output, status))


def build_library(source, path, compiler):
    """Builds a library, from a source beside this file, that stands in front of the system's when a program is loaded."""
    source = os.path.join(os.path.dirname(os.path.abspath(__file__)), source)
    subprocess.run([compiler, "-shared", "-fPIC", "-O1", source, "-o", path], check=True)
