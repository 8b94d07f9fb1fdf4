"""What the trials share that refuse one call of a run after another: the lines of a run that comes by most of the program, what the next
run shows of it, and the runs."""
import argparse
import os
import shutil
import subprocess
import sys
import tempfile

from client import NAME_FRONT, get_line, memory_folder, run_lines
from readers.journal_reader import get_files, read_pair
from trials.batches import batch_line, build_library, spelled_line, told_by


def value_line(path):
    """A line that writes a document with values of each kind."""
    values = {"array": {"arrayValue": {"values": [{"integerValue": "1"}, {"arrayValue": {}}, {"mapValue": {"fields": {"x": {"bytesValue": "+w=="}}}}]}},
              "null": {"nullValue": None}, "time": {"timestampValue": "2024-05-01T00:00:01.5Z"}, "text": {"stringValue": "r\u00f6\u00f6m"},
              "reference": {"referenceValue": NAME_FRONT + "rooms/b"}, "yes": {"booleanValue": True}}
    update = {"name": NAME_FRONT + path, "fields": values}
    transforms = [{"fieldPath": "array", "appendMissingElements": {"values": [{"nullValue": None}]}}, {"fieldPath": "`a b`.c", "setToServerValue": "REQUEST_TIME"}]
    writes = [{"update": update}, {"update": update, "updateMask": {"fieldPaths": ["text", "gone.x"]}, "updateTransforms": transforms, "currentDocument": {"exists": True}}]
    return spelled_line({"write": {"at": "2024-05-01T00:00:01Z", "writes": writes}})


def compared(operator, value):
    return {"fieldFilter": {"field": {"fieldPath": "n"}, "op": operator, "value": value}}


def listen_line(number, query):
    """A line of a listener on the collection of the documents."""
    target = {"parent": NAME_FRONT[:-1], "structuredQuery": {"from": [{"collectionId": "rooms"}], **query}}
    return spelled_line({"listen": {"id": number, "target": {"query": target}}})


FILTERS = [compared("GREATER_THAN", {"integerValue": "0"}), compared("NOT_IN", {"arrayValue": {"values": [{"stringValue": "x"}]}})]
NUMBERED = {"where": {"compositeFilter": {"op": "AND", "filters": FILTERS}}, "orderBy": [{"field": {"fieldPath": "n"}, "direction": "DESCENDING"}],
            "startAt": {"values": [{"arrayValue": {}}]}, "limit": 2}
OPENING = [b'{"open":{"stream":"write"}}\n', b'{"written":{"streamToken":"AQ=="}}\n']
TIME = "2024-05-01T00:00:05Z"
RETURNED = {"updateTime": TIME, "transformResults": [{"nullValue": None}, {"timestampValue": TIME}]}
RESULTS = [spelled_line({"written": {"streamToken": "Ag==", "commitTime": TIME, "writeResults": results}}) for results in ([{}], [{}, RETURNED])]
BAD_MESSAGE = b'{"written":{"writeResults":[{"transformResults":[{"mapValue":{"fields":{"__a__":{"nullValue":null}}}}]}]}}\n'
CLOSE = b'{"close":{"stream":"write","status":{"code":7,"message":"no"}}}\n'
LINES = [get_line("rooms/a"), listen_line(1, NUMBERED), batch_line("rooms/a", 1), b"no json\n", value_line("rooms/b"), get_line("rooms/b"),
         b'{"listen":{}}\n', listen_line(2, {}), get_line("rooms"), *OPENING, batch_line("rooms/a", 2), *RESULTS, OPENING[0], listen_line(1, {}),
         get_line("rooms/a"), BAD_MESSAGE, OPENING[1], *OPENING, b'{"write":{"at":5}}\n', CLOSE, listen_line(3, {"limit": 0}), b'{"unlisten":{"id":1}}\n',
         value_line("rooms/c"), b'{"unlisten":{"id":9}}\n', b'{"close":{"stream":5}}\n', *OPENING, b'{"close":{"stream":"write"}}\n']
AGAIN = [get_line("rooms/a"), batch_line("rooms/a", 3), get_line("rooms/b")]
PATHS = ("rooms/a", "rooms/b", "rooms/c")


def read_back(program, store):
    """What the next run shows of each document, and the answers to a listener, to the stream's opening and to one more write."""
    lines = [get_line(path) for path in PATHS] + [listen_line(4, NUMBERED), *OPENING, batch_line("rooms/z", 9)]
    status, output = run_lines(program, store, lines)
    return status, output.splitlines()


def kept_in(store):
    """The number of commits in the journal, or -1 where it isn't one."""
    found = read_pair(get_files(store))
    return len(found[3]) if found[0] == "counts" else 0 if found[0] == "blank" else -1


class Trial:
    """Runs of some lines over a new folder, or a copy of an old one, each with one of its calls refused by a library."""

    CALLS = "calls"

    def __init__(self, program, library, folder, lines, old=None):
        self.program, self.library, self.folder, self.lines, self.old = program, library, folder, lines, old
        self.begun = kept_in(old) if old else 0
        self.shown, self.whole = self.shown_after()

    def begin(self):
        """The folder that a run begins with."""
        store = os.path.join(self.folder, "store")
        shutil.rmtree(store, ignore_errors=True)
        if self.old:
            shutil.copytree(self.old, store)
        return store

    def commits_in(self, answers):
        """The number of commits that the store has once these lines are printed."""
        return max(map(told_by, answers), default=0) or self.begun

    def shown_after(self):
        """What the next run shows, by the number of commits, and the lines of the whole run."""
        shown, whole = {}, None
        for count in range(len(self.lines) + 1):
            store = self.begin()
            whole = run_lines(self.program, store, self.lines[:count])[1].splitlines(keepends=True)
            shown[self.commits_in(whole)] = read_back(self.program, store)[1]
        return shown, whole

    def run_refused(self, number, **words):
        """The folder, the status and the output of the run in which the call of this number is refused."""
        store = self.begin()
        words = dict(os.environ, LD_PRELOAD=self.library, REFUSED=str(number), **words)
        done = subprocess.run([self.program, "run", store], input=b"".join(self.lines), env=words, stdout=subprocess.PIPE, stderr=subprocess.PIPE, timeout=60)
        return store, done.returncode, done.stdout

    def count(self):
        """The number of calls of the whole run."""
        counted = os.path.join(self.folder, "count")
        self.run_refused(0, COUNT=counted)
        with open(counted) as file:
            return int(file.read())

    def fault_of(self, store, status, output):
        """What is wrong with a run, or None."""
        lines = output.splitlines(keepends=True)
        if lines != self.whole[:len(lines)]:
            return "it wrote other lines than the whole run's: %r" % output[-300:]
        wrong = self.fault_of_end(status, len(lines) == len(self.whole))
        if wrong:
            return "%s, after %d of %d lines" % (wrong, len(lines), len(self.whole))
        commits, kept = self.commits_in(lines), kept_in(store)
        if kept != commits and not (status in (4, 5, 6) and kept == commits + 1):
            return "%d commits were reported, and the journal is %s" % (commits, read_pair(get_files(store))[:3])
        if read_back(self.program, store) != (0, self.shown.get(kept)):
            return "the next run shows something else than %d commits" % kept
        return None

    def fault_of_end(self, status, is_whole):
        """What is wrong with the end of a run that wrote all lines or not, or None."""
        raise NotImplementedError

    def refuse_each(self, first, last):
        """Refuses each of these calls in turn, and says how the runs ended. Whether all went well."""
        ends, calls, wrong = {}, self.count(), None
        if calls == 0:
            sys.exit("the program's %s don't go through the library" % self.CALLS)
        for number in range(first, min(last or calls, calls) + 1):
            store, status, output = self.run_refused(number)
            wrong = self.fault_of(store, status, output)
            if wrong:
                print("number %d of the %s: %s" % (number, self.CALLS, wrong))
                break
            ends[status] = ends.get(status, 0) + 1
        print("%d of %d %s refused, each in a run of %d lines over %d commits: %s: %s" % (
            sum(ends.values()), calls, self.CALLS, len(self.lines), self.begun,
            ", ".join("%d ended with status %d" % (ends[status], status) for status in sorted(ends)), "FAILED" if wrong else "no fault"))
        return not wrong


def refuse_all(kind, program, source, words):
    """Refuses each call of a run over a new folder, and of a shorter one over what the whole run left. Whether all went well."""
    with tempfile.TemporaryDirectory(prefix="refusals-", dir=memory_folder()) as folder:
        library, old = os.path.join(folder, "refuses.so"), os.path.join(folder, "old")
        build_library(source, library, words.compiler)
        run_lines(program, old, LINES)
        trials = kind(program, library, folder, LINES), kind(program, library, folder, AGAIN, old)
        return all(trial.refuse_each(words.first, words.last) for trial in trials)


def words_of(description):
    """The words of a trial's command."""
    parser = argparse.ArgumentParser(description=description.split("\n")[0])
    parser.add_argument("--program")
    parser.add_argument("--from", dest="first", type=int, default=1)
    parser.add_argument("--to", dest="last", type=int, default=0)
    parser.add_argument("--compiler", default="cc")
    return parser.parse_args()
