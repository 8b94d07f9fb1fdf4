"""A long run of both streams against an honest backend in memory: listeners, local writes and those of the backend, closings, and ends and
kills of the program at rest.

Lines are fed in chunks. Only behind a chunk the backend hears the requests that the program printed, so that it tells more, for a while, of
what isn't asked any more; what is on its way where a stream closes is lost.
"""
import collections
import json
import random
import sys

from client import NAME_FRONT, Client, get_line
from measure.honest_backend import HonestBackend
from trials.streams.sides import MARK, STREAMS, spelled
from trials.streams.simple_lines import REFUSED, SimpleLines

EVENTS = {"write": 12, "get": 8, "listen": 1.5, "unlisten": 0.8, "message": 70, "timer": 0.5, "close": 0.5, "open": 3}
RESTARTED = {**EVENTS, "restart": 0.05}
MOST_LISTENERS = 10
LONGEST_CHUNK, MOST_BYTES = 100, 40_000  # a chunk goes into a pipe whole
CODES = [1, 10, 13, 14]  # of a stream that breaks off


class Feed(Client):
    """The program over a store, fed several lines at a time."""

    def __init__(self, program, store):
        self.words, self.mark = (program, store), get_line(MARK)
        self.begin()

    def begin(self):
        super().__init__(*self.words)
        _, _, self.marked = self.ask([self.mark], 1)

    def begin_again(self, is_killed):
        """The run ends, or is killed, and another begins over the store."""
        if is_killed:
            self.process.kill()
            self.process.communicate()
        else:
            self.end()
        self.begin()

    def printed(self, groups):
        """The lines that are printed for each group of lines."""
        self.process.stdin.write(b"".join(line for group in groups for line in [*group, self.mark]))
        self.process.stdin.flush()
        return [list(self.until_mark()) for _ in groups]

    def until_mark(self):
        for line in iter(self.process.stdout.readline, self.marked):
            if not line:
                sys.exit("the program ended early, with status %d" % self.process.wait())
            yield line


class SoakRun:
    """A run over a store. `steps` has each line with what was printed for it, if they are kept; only then the program is begun anew."""

    def __init__(self, feed, seed, is_kept):
        self.chance, self.feed, self.is_kept = random.Random(seed), feed, is_kept
        self.lines_in, self.printed, self.synced = collections.Counter(), collections.Counter(), 0
        self.lines = SimpleLines(self.chance, NAME_FRONT)
        self.backend = HonestBackend(self.chance, NAME_FRONT, lambda: self.lines.write(False), REFUSED)
        self.listeners, self.last_listener, self.pending = [], 0, 0
        self.chunk, self.room, self.size, self.events, self.steps = [], 1, 0, 0, []

    def say(self, line, is_last=False):
        """A line goes into the chunk, as its last one where what comes next rests on what it prints."""
        self.chunk.append((line, spelled(line)))
        self.events += 1
        self.lines_in[next(iter(line))] += 1
        self.size += len(self.chunk[-1][1])
        if is_last or len(self.chunk) >= self.room or self.size >= MOST_BYTES:
            self.flush()

    def flush(self):
        """Feeds the chunk. What it prints for a stream that it closed is lost."""
        texts = [text for _, text in self.chunk]
        printed = self.feed.printed([[text] for text in texts] if self.is_kept else [texts])
        if self.is_kept:
            self.steps += [(line, list(map(json.loads, lines))) for (line, _), lines in zip(self.chunk, printed)]
        self.chunk, self.room, self.size = [], self.chance.randint(1, LONGEST_CHUNK), 0
        for lines in printed:
            for line in lines:
                self.take(line)

    def take(self, text):
        kind = text[2:text.index(b'"', 2)].decode()
        self.printed[kind] += 1
        if kind == "snapshot":
            self.synced += b'"fromCache":false' in text
        elif kind == "send":
            (stream, request), = json.loads(text)["send"].items()
            stream = "watch" if stream == "listen" else stream
            if stream in self.backend.streams:
                self.backend.take(stream, request)
        elif kind == "error":
            self.listeners.remove(json.loads(text)["error"]["id"])
        elif kind in ("result", "rejected"):
            self.pending -= 1
        elif kind == "refused":
            sys.exit("a line is refused: %s" % text.decode())

    # ---- events

    def write(self):
        self.pending += 1
        self.say(self.lines.write_line())

    def get(self):
        self.say({"get": {"name": self.lines.name()}})

    def listen(self):
        if len(self.listeners) >= MOST_LISTENERS:
            self.unlisten()
            return
        self.last_listener += 1
        self.listeners.append(self.last_listener)
        self.say({"listen": {"id": self.last_listener, "target": self.chance.choice(self.lines.targets)}})

    def unlisten(self):
        if self.listeners:
            number = self.chance.choice(self.listeners)
            self.listeners.remove(number)
            self.say({"unlisten": {"id": number}})

    def restart(self):
        """The program ends, or is killed at rest, and begins again over its store."""
        self.flush()
        for stream in list(self.backend.streams):
            self.backend.close(stream)
        self.listeners = []
        self.lines_in["restart"] += 1
        self.feed.begin_again(self.chance.random() < 0.5)
        self.steps.append(({"restart": {}}, []))

    def timer(self):
        self.say({"timer": {"name": "online"}})

    def open(self):
        for stream in STREAMS:
            if stream not in self.backend.streams:
                self.backend.open(stream)
                self.say({"open": {"stream": stream}})

    def close(self):
        if self.backend.streams:
            stream = self.chance.choice(list(self.backend.streams))
            self.backend.close(stream)
            self.say({"close": {"stream": stream, "status": {"code": self.chance.choice(CODES)}}}, is_last=True)

    def message(self):
        """The next message of a stream comes in. Where none is on its way, the backend hears what is asked, and goes on."""
        if not self.backend.streams:
            self.open()
            return
        weights = {"watch": 5, "write": 4 + self.pending // 4}
        stream = self.chance.choices(list(self.backend.streams), [weights[stream] for stream in self.backend.streams])[0]
        out = self.backend.streams[stream].out
        if not out:
            self.backend.work(stream)
        if out:
            self.deliver(stream, out.popleft())
        elif stream == "write" and self.chunk and self.pending:
            self.flush()

    def deliver(self, stream, line):
        if "close" in line:
            self.backend.close(stream)
        has_ended = "close" in line or "cause" in line.get("watch", {}).get("targetChange", {})
        self.say(line, is_last=has_ended)

    def whole(self, events):
        kinds, weights = zip(*(RESTARTED if self.is_kept else EVENTS).items())
        while self.events < events:
            getattr(self, self.chance.choices(kinds, weights)[0])()
        self.flush()
