"""What was opened, sent, received and closed on the streams of listeners, and the documents of the backend that answers, by *History* and
*Transcript* of the definitions.

A time is as readers/store.py compares it. A target has a text that equal targets share. Names are whole ones.
"""
import bisect
import json

from readers.queries import OneDocument, read_target
from readers.store import moment

BEGINNING = moment("0001-01-01T00:00:00Z")


class World:
    """The documents at each time, from a list of writes: each as its time, its name, and its fields or None."""

    def __init__(self, writes):
        self.times, self.of_name = [moment(time) for time, _, _ in writes], {}
        for time, (_, name, fields) in zip(self.times, writes):
            self.of_name.setdefault(name, []).append((time, fields))
        self.rows, self.answers = {}, {}
        rising = all(one[0] < other[0] for each in self.of_name.values() for one, other in zip(each, each[1:]))
        if self.times != sorted(self.times) or not rising:
            raise ValueError("the versions of the history fall")

    def document(self, name, time):
        """The fields of the document of that name at a time, and the time of its last write; or None."""
        written = self.of_name.get(name, [])
        place = bisect.bisect_right(written, time, key=lambda each: each[0])
        if place == 0 or written[place - 1][1] is None:
            return None
        at, fields = written[place - 1]
        return fields, at

    def is_true_version(self, name, time):
        found = self.document(name, time)
        return found is None or found[1] == time

    def row(self, target, name, document):
        """Where the document stands in the order of the target's query; None where it doesn't match."""
        key = target.text, name, document[1]
        if key not in self.rows:
            self.rows[key] = target.row_of(name, document[0])
        return self.rows[key]

    def answer(self, target, time):
        """The update times of the documents of the target's answer at a time, by their names."""
        key = target.text, bisect.bisect_right(self.times, time)
        if key not in self.answers:
            found = {name: self.document(name, time) for name in self.of_name}
            rows = {name: self.row(target, name, document) for name, document in found.items() if document}
            rows = {name: row for name, row in rows.items() if row is not None}
            self.answers[key] = {name: found[name][1] for name, row in rows.items() if target.is_within_limit(row, rows.values())}
        return self.answers[key]

    def versions(self, after, upto):
        """The time `after`, and the times of writes behind it and not behind `upto`, which is None where there is no end."""
        yield after
        end = len(self.times) if upto is None else bisect.bisect_right(self.times, upto)
        yield from self.times[bisect.bisect_right(self.times, after):end]


class Target:
    """What an add request or a listener asks."""

    def __init__(self, tree, front):
        self.asked = read_target(tree, front)
        self.text = json.dumps(self.asked.printed(), sort_keys=True)
        self.only = self.asked.name if isinstance(self.asked, OneDocument) else None  # the document of a document target
        self.limit = getattr(self.asked, "limit", None)

    def row_of(self, name, fields):
        if self.only is not None:
            return () if name == self.only else None
        return self.asked.row_of(name, fields)

    def earlier(self, row, rows):
        """How many of the rows come before this one."""
        return 0 if self.only is not None else sum(self.asked.compared(other, row) < 0 for other in rows)

    def is_within_limit(self, row, rows):
        return self.limit is None or self.earlier(row, rows) < self.limit


class Incarnation:
    """What one add request opened, with the names that it starts with and, where it has a token, the version of that."""

    def __init__(self, target, starting, version):
        self.target, self.starting, self.version = target, frozenset(starting), version
        self.is_wanted, self.has_ended, self.counts = True, False, False
        self.start(False)

    def start(self, is_add):
        """It starts: at the ADD from which it counts, or at a RESET, behind which nothing is told."""
        self.at_add, self.news, self.is_current, self.token, self.filtered = is_add, {}, False, "", None

    def told(self):
        """The names whose last message since the start put them in, and those of the ADD that no message named."""
        put_in = {name for name, update in self.news.items() if update is not None}
        return put_in | {name for name in self.starting if name not in self.news} if self.at_add else put_in


class Transcript:
    """The incarnations of each id on the stream that is open, the oldest first."""

    def __init__(self):
        self.cut()

    def cut(self):
        """A stream is opened or closed."""
        self.opened = {}

    def add(self, number, incarnation):
        self.opened.setdefault(number, []).append(incarnation)

    def remove(self, number):
        self.opened[number][-1].is_wanted = False

    def live(self):
        """By their ids the newest incarnations that have no remove request and haven't ended, where all older ones have."""
        return {number: each[-1] for number, each in self.opened.items()
                if each[-1].is_wanted and not each[-1].has_ended and all(older.has_ended for older in each[:-1])}

    def counting(self):
        return {number: found for number, found in self.live().items() if found.counts}

    def change(self, message):
        """Takes a change of targets; gives the ids of the live incarnations that ended."""
        live = {number: found for number, found in self.live().items() if message.names(number)}
        if message.change == "REMOVE":
            for number in message.ids & set(self.opened):
                oldest = next((found for found in self.opened[number] if not found.has_ended), None)
                if oldest:
                    oldest.has_ended = True
            return set(live)
        for found in live.values():
            if message.change == "ADD" and not found.counts:
                found.counts = True
                found.start(True)
            if found.counts:
                self.heard(found, message)
        return set()

    @staticmethod
    def heard(found, message):
        if message.change == "RESET":
            found.start(False)
        found.is_current = found.is_current or message.change == "CURRENT"
        found.token = message.token or found.token

    def document(self, message):
        """Takes a message of a document; gives whether any id that it lists counts."""
        heard = [(number, found) for number, found in self.counting().items() if number in message.added | message.left]
        for number, found in heard:
            is_in = number in message.added and number not in message.left
            found.news[message.name] = moment(message.entry["version"]) if is_in else None
        return bool(heard)

    def forget_tokens(self):
        for each in self.opened.values():
            each[-1].token = ""
