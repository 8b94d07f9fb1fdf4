"""The two sides of a run against the emulator: the program over a store, and the backend, with what it tells until it is delivered."""
import json
import os
import queue
import random
import shutil
import subprocess
import time

from trials.messages.backend import Backend
from trials.messages.compare import Reading, differences, read_fields, read_time

MARK = "none/mark"  # a document that is never written: its answer ends what is printed for a line
SECONDS = 60  # the longest wait for an answer
QUIET = 0.05  # the seconds without a line after which a stream rests
STREAMS = ("watch", "write")
MESSAGES = {"watch": "watch", "written": "write"}  # the stream of each kind of message
CODES = [10, 13, 14]  # of a stream that breaks off


class Difference(Exception):
    """The two sides differ, or one of them gave no answer."""


def change_in(line):
    """The change of targets that a line tells, or an empty one."""
    return line.get("watch", {}).get("targetChange", {})


def is_point(line):
    change = change_in(line)
    return "readTime" in change and not change.get("targetIds") and change.get("targetChangeType") != "REMOVE"


def is_close(line, stream):
    return line.get("close", {}).get("stream") == stream


class Link(Backend):
    """The backend, for one run after the other. What comes on a stream is kept in `coming`, in its order."""

    def begin(self, database):
        """A run over this database begins."""
        self.database = database
        self.coming, self.is_up = {stream: [] for stream in STREAMS}, {stream: False for stream in STREAMS}
        self.added = set()  # the targets that the stream of listeners has

    def next(self, seconds):
        """The next line, or None where none comes within this time."""
        try:
            line = self.arrived.get(timeout=seconds)
        except queue.Empty:
            return None
        if "broken" in line:
            raise Difference("the bridge refused a line: " + line["broken"])
        kind = next(iter(line))
        stream = line["close"]["stream"] if kind == "close" else MESSAGES.get(kind)
        if stream:
            self.coming[stream].append(line)
            self.is_up[stream] = kind != "close"
        if change_in(line).get("targetChangeType") == "REMOVE":
            self.added -= set(change_in(line)["targetIds"])
        return line

    def wait(self, accepts):
        """The next line that is accepted."""
        end = time.monotonic() + SECONDS
        while time.monotonic() < end:
            line = self.next(1)
            if line and accepts(line):
                return line
        raise Difference("the backend gave no answer")

    def rest(self, quiet=QUIET):
        """Waits until the stream of listeners rests: nothing more comes behind a point, or the end of a target or of the stream."""
        end = time.monotonic() + SECONDS
        while self.next(quiet) or not all(is_point(last) or "close" in last or change_in(last).get("targetChangeType") == "REMOVE"
                                          for last in self.coming["watch"][-1:]):
            if time.monotonic() > end:
                raise Difference("the stream of listeners doesn't come to rest")

    def call(self, method, request):
        """What the backend answers to a call beside the streams."""
        self.calls += 1
        number = self.calls
        self.send({"rpc": {"id": number, "method": method, "database": self.database, "request": request}})
        return self.wait(lambda line: line.get("rpc", {}).get("id") == number)["rpc"]

    def documents(self, names):
        """What the backend has of the documents, by their names."""
        answers = self.call("batchGet", {"database": self.database, "documents": names})["responses"]
        return {answer["found"]["name"] if "found" in answer else answer["missing"]: answer.get("found") for answer in answers}

    def commit(self, writes):
        """Another client writes; gives what it is answered, once the stream of listeners rests."""
        answer = self.call("commit", {"database": self.database, "writes": writes})
        self.rest()
        return answer

    def open(self, stream):
        self.send({"open": {"stream": stream, "database": self.database}})
        self.wait(lambda line: line.get("open", {}).get("stream") == stream)
        self.is_up[stream] = True

    def cut(self, stream):
        """The stream is closed on this side: what has come on it is lost."""
        if self.is_up[stream]:
            self.send({"close": {"stream": stream}})
            self.wait(lambda line: line.get("closed", {}).get("stream") == stream or is_close(line, stream))
        self.coming[stream], self.is_up[stream] = [], False
        if stream == "watch":
            self.added = set()
            time.sleep(QUIET)  # where the emulator hasn't noticed yet, it breaks off the next write

    def pass_on(self, stream, line):
        """Passes on a request and waits for its whole answer, so that nobody writes while a target is added; on a stream that ended it is
        lost."""
        if not self.is_up[stream]:
            return
        self.send(line)
        if stream == "write":
            self.wait(lambda came: "written" in came or is_close(came, "write"))
            self.rest()
        elif "addTarget" in line["send"]["listen"]:
            self.wait_for_target(line["send"]["listen"]["addTarget"]["targetId"])
        elif line["send"]["listen"]["removeTarget"] in self.added:
            self.wait(lambda _: line["send"]["listen"]["removeTarget"] not in self.added or not self.is_up["watch"])

    def wait_for_target(self, number):
        """Waits until a target that was added is current, and for the point behind that, or until the backend refuses it."""
        self.added.add(number)

        def is_current(line):
            change = change_in(line)
            return change.get("targetChangeType") == "CURRENT" and number in change["targetIds"]
        if is_current(self.wait(lambda line: is_current(line) or number not in self.added or not self.is_up["watch"])):
            self.wait(lambda line: is_point(line) or not self.is_up["watch"])


def spelled(line):
    return json.dumps(line, ensure_ascii=False).encode() + b"\n"


class Program:
    """The program over a store, asked line by line."""

    def __init__(self, program, store, database):
        self.mark = spelled({"get": {"name": "%s/documents/%s" % (database, MARK)}})
        self.process = subprocess.Popen([program, "run", store, database], stdin=subprocess.PIPE, stdout=subprocess.PIPE)

    def tell(self, text):
        self.process.stdin.write(text)
        self.process.stdin.flush()

    def ask(self, line):
        """The lines that are printed for a line."""
        self.tell(spelled(line) + self.mark)
        printed = []
        while True:
            text = self.process.stdout.readline()
            if not text:
                raise Difference("the program ended with status %d at %s" % (self.process.wait(), json.dumps(line)))
            answer = json.loads(text)
            if answer.get("document", {}).get("name", "").endswith(MARK):
                return printed
            printed.append(answer)

    def end(self):
        """Ends the input; the program must end well."""
        self.process.stdin.close()
        if self.process.wait() != 0:
            raise Difference("the program ended with status %d" % self.process.returncode)
        self.process.stdout.close()

    def kill(self, line=None, delay=0):
        """Kills the program so long after it got the line; gives the whole lines that it had printed for it."""
        if line:
            self.tell(spelled(line))
            time.sleep(delay)
        self.process.kill()
        printed = self.process.stdout.read().splitlines(keepends=True)
        self.process.wait()
        return [json.loads(text) for text in printed if text.endswith(b"\n")]


class Run:
    """One run: a store and a database of its own, the batches that are pending, by their numbers, and what was wrong."""

    def __init__(self, words, link, folder, number, counts):
        self.chance, self.link, self.counts = random.Random("%s %d %d" % (words.kind, words.seed, number)), link, counts
        self.program_path, self.store = words.program, os.path.join(folder, "store%d" % number)
        self.database = "projects/%s-s%dr%d/databases/(default)" % (words.kind, words.seed, number)
        self.pending, self.last_batch, self.known, self.wrong = {}, 0, {}, []  # `known`: update times by name
        self.link.begin(self.database)
        self.begin_program()

    def begin_program(self):
        self.program = Program(self.program_path, self.store, self.database)

    def name(self, path):
        return "%s/documents/%s" % (self.database, path)

    def is_pending(self, name):
        return any(name == name_of(write) for writes in self.pending.values() for write in writes)

    def enqueue(self, batch, writes):
        self.pending[batch], self.last_batch = writes, batch
        self.counts["batches"] += 1

    def end(self):
        self.program.kill()
        for stream in STREAMS:
            self.link.cut(stream)
        shutil.rmtree(self.store, ignore_errors=True)


def name_of(write):
    return write["delete"] if "delete" in write else write["update"]["name"]


def plain(fields, update_time):
    return {"exists": True, "fields": read_fields(fields, "", Reading()), "updateTime": update_time and read_time(update_time, "", None)}


def plain_shown(document):
    """A document of the program, in a form to compare."""
    if not document.get("exists", True):
        return {"exists": False}
    return plain(document.get("fields", {}), document.get("updateTime"))


def plain_found(document):
    """A document of the backend."""
    return {"exists": False} if document is None else plain(document.get("fields", {}), document["updateTime"])


def document_differences(shown, found):
    """The places at which a document of the program and one of the backend, or None, differ."""
    return list(differences("", plain_shown(shown), plain_found(found)))
