"""The worked example of a first sync, read by the definitions, and copies of it with one thing wrong each."""
import json
import os
import sys

from client import NAME_FRONT, ROOT
from trials.streams.agreement import Agreement

FIRST_SYNC = os.path.join(ROOT, "examples", "first-sync.example")
CURRENT = '"targetChange": {"targetChangeType": "CURRENT", "targetIds": [2], "resumeToken": "AQ==", "readTime": "2024-05-01T00:00:03Z"}'
DELETE = '"documentDelete": {"document": "%srooms/b", "readTime": "2024-05-01T00:00:03Z", "removedTargetIds": [2]}' % NAME_FRONT
SHOWN = ('{"fields": {"n": {"integerValue": "2"}}, "name": "%srooms/b", "state": "synced", "updateTime": "2024-05-01T00:00:02Z"}' % NAME_FRONT)
SPOILED = [  # what is wrong, the line, a text of it or of what it prints, and what takes its place; without a text the line is left out
    ("a document isn't told", 5, None, None),
    ("it is told otherwise", 5, '"integerValue": "2"', '"integerValue": "3"'),
    ("it is told of another time", 5, "00:00:02Z", "00:00:01Z"),
    ("it isn't the target's", 5, "[2]", "[4]"),
    ("the point is too early", 7, "00:00:03Z", "00:00:01Z"),
    ("a filter counts otherwise", 6, CURRENT, '"filter": {"targetId": 2, "count": 3}'),
    ("a document that is there is deleted", 6, CURRENT, DELETE),
    ("a document is shown otherwise", 7, '"integerValue": "2"', '"integerValue": "3"'),
    ("it is shown of another time", 7, "00:00:02Z", "00:00:01Z"),
    ("another document is shown", 7, "rooms/b", "rooms/c"),
    ("a document isn't shown", 7, ", " + SHOWN, ""),
    ("the snapshot has another read time", 7, '"id": 1, "readTime": "2024-05-01T00:00:03Z"', '"id": 1, "readTime": "2024-05-01T00:00:04Z"')]


def document(letter, number):
    return "2024-05-01T00:00:0%dZ" % number, "%srooms/%s" % (NAME_FRONT, letter), {"n": {"integerValue": str(number)}}


def first_sync(feed):
    """The example's lines, each with what is printed for it."""
    with open(FIRST_SYNC, encoding="utf-8") as file:
        lines = [line[3:].encode() for line in file if line.startswith("in ")]
    printed = feed.printed([[line] for line in lines])
    return [[json.loads(line), list(map(json.loads, texts))] for line, texts in zip(lines, printed)]


def faults_of(steps):
    agreement = Agreement([document("a", 1), document("b", 2)], NAME_FRONT)
    agreement.take_all(steps)
    return agreement.faults


def spoiled(steps, number, old, new):
    """The steps with one thing wrong."""
    texts = list(map(json.dumps, steps))
    if old is None:
        del texts[number - 1]
    elif old not in texts[number - 1]:
        sys.exit("line %d of the example hasn't %s" % (number, old))
    else:
        texts[number - 1] = texts[number - 1].replace(old, new)
    return list(map(json.loads, texts))


def missed(steps):
    """What is wrong in the copies that have no fault."""
    return [what for what, *wrong in SPOILED if not faults_of(spoiled(steps, *wrong))]
