"""Recorded messages against what the crates read of them, member by member."""
import base64
import collections
import json
import re
from datetime import datetime, timezone

DEEPEST = 20
REQUIRED = object()
UNSUPPORTED = ("doubleValue", "geoPointValue")


class Reading:
    """What was seen while a message was taken apart: the members that nothing reads, and what the crates are to refuse it for."""

    def __init__(self):
        self.ignored = collections.Counter()
        self.faults = []

    def fault(self):
        """The first of the least kind, by the order of docs/FORMATS.md, with the member or the name."""
        return min(self.faults, key=lambda fault: fault[0])[1:] if self.faults else None


def read_time(tree, _path, _reading):
    """Nanoseconds since 1970."""
    front, fraction = re.fullmatch(r"(\d{4}-\d\d-\d\dT\d\d:\d\d:\d\d)(?:\.(\d{1,9}))?Z", tree).groups()
    moment = datetime.fromisoformat(front).replace(tzinfo=timezone.utc) - datetime(1970, 1, 1, tzinfo=timezone.utc)
    return (moment.days * 86400 + moment.seconds) * 10**9 + int((fraction or "").ljust(9, "0"))


def read_bytes(tree, _path, _reading):
    return base64.b64decode(tree, validate=True)


def read_number(tree, _path, _reading):
    return int(tree)


def read_word(tree, _path, _reading):
    return tree


def read_name(tree, _path, reading):
    segments = tree.split("/documents/")[1].split("/")
    if any(len(segment) > 3 and segment.startswith("__") and segment.endswith("__") for segment in segments):
        reading.faults.append((3, "BadName", tree))
    return tree


def list_of(reader):
    return lambda tree, path, reading: [reader(item, path + "[]", reading) for item in tree]


def object_of(**members):
    """A reader of objects: each member's reader, with what stands for the member where it is left out or null."""
    def read(tree, path, reading):
        found = {}
        for name, (reader, otherwise) in members.items():
            inner = tree.get(name)
            if inner is None and otherwise is REQUIRED:
                raise ValueError("%s.%s is missing" % (path, name))
            found[name] = otherwise if inner is None else reader(inner, "%s.%s" % (path, name), reading)
        for name in tree:
            if name not in members:
                reading.ignored["%s.%s" % (path, name)] += 1
        return found
    return read


def read_value(tree, path, reading, depth=0):
    """The kind of a value and its content."""
    (kind, content), = tree.items()
    depth += kind in ("arrayValue", "mapValue")
    if depth > DEEPEST:
        reading.faults.append((1, "TooDeep", ""))
    elif kind in UNSUPPORTED or (kind == "mapValue" and "__type__" in content.get("fields", {})):
        reading.faults.append((2, "Unsupported", "vectorValue" if kind == "mapValue" else kind))
    elif kind == "arrayValue":
        content = [read_value(item, path, reading, depth) for item in content.get("values", [])]
    elif kind == "mapValue":
        content = {name: read_value(item, path, reading, depth) for name, item in content.get("fields", {}).items()}
    elif kind in ("integerValue", "timestampValue", "bytesValue"):
        content = {"i": read_number, "t": read_time, "b": read_bytes}[kind[0]](content, path, reading)
    return kind, content


def read_fields(tree, path, reading):
    return {name: read_value(value, path, reading) for name, value in tree.items()}


STATUS = object_of(code=(read_number, 0), message=(read_word, ""))
IDS = list_of(read_number)
GONE = object_of(document=(read_name, REQUIRED), removedTargetIds=(IDS, []), readTime=(read_time, None))
DOCUMENT = object_of(name=(read_name, REQUIRED), fields=(read_fields, {}), updateTime=(read_time, REQUIRED))
LISTEN = {
    "targetChange": object_of(targetChangeType=(read_word, "NO_CHANGE"), targetIds=(IDS, []), cause=(STATUS, None),
                              resumeToken=(read_bytes, b""), readTime=(read_time, None)),
    "documentChange": object_of(document=(DOCUMENT, REQUIRED), targetIds=(IDS, []), removedTargetIds=(IDS, [])),
    "documentDelete": GONE,
    "documentRemove": GONE,
    "filter": object_of(targetId=(read_number, 0), count=(read_number, 0)),
}
RESULT = object_of(updateTime=(read_time, None), transformResults=(list_of(read_value), []))
WRITTEN = object_of(streamToken=(read_bytes, b""), writeResults=(list_of(RESULT), []), commitTime=(read_time, None))
CLOSE = object_of(status=(STATUS, REQUIRED))


def kind_of(line):
    """The kind of a message, as it is counted."""
    if "watch" not in line:
        return "written" if "written" in line else "close"
    (name, inner), = line["watch"].items()
    return "%s %s" % (name, inner.get("targetChangeType", "NO_CHANGE")) if name == "targetChange" else name


def read_line(line, reading):
    """A line's message with each member in a plain form, whatever its spelling."""
    if "watch" in line:
        (name, inner), = line["watch"].items()
        return {name: LISTEN[name](inner, name, reading)}
    if "written" in line:
        return {"written": WRITTEN(line["written"], "written", reading)}
    return {"close": CLOSE(line["close"], "close", reading)}


def differences(path, one, other):
    """The places at which two plain forms differ, with both."""
    if isinstance(one, dict) and isinstance(other, dict):
        for name in sorted(one.keys() | other.keys()):
            yield from differences("%s.%s" % (path, name), one.get(name), other.get(name))
    elif one != other or type(one) is not type(other):
        yield path, one, other


class Comparison:
    """What came of comparing: how many messages were read, their faults, and the differences."""

    def __init__(self):
        self.read = 0
        self.values = collections.Counter()
        self.ignored = collections.Counter()
        self.faults = collections.Counter()
        self.differences = []

    def count_values(self, kind, content):
        self.values[kind] += 1
        inner = content if kind == "arrayValue" else content.values() if kind == "mapValue" else ()
        for value in inner:
            self.count_values(*value)

    def count_message(self, plain):
        fields = plain.get("documentChange", {}).get("document", {}).get("fields", {})
        results = plain.get("written", {}).get("writeResults", [])
        for value in list(fields.values()) + [value for result in results for value in result["transformResults"]]:
            self.count_values(*value)

    def take(self, number, recorded, printed):
        """Compares a message with what was printed of it, both lines of text."""
        reading, line = Reading(), json.loads(recorded)
        plain, fault = read_line(line, reading), reading.fault()
        printed = json.loads(printed)
        if printed is None or "fault" in printed:
            found = printed and (printed["fault"], printed["name"])
            if found != fault:
                self.differences.append((number, "fault", fault, found))
            self.faults["%s %s" % found if found else "no answer"] += 1
            return
        self.read += 1
        self.ignored += reading.ignored
        if fault:
            self.differences.append((number, "fault", fault, None))
            return
        self.count_message(plain)
        self.differences += [(number, *found) for found in differences("", plain, read_line(printed, Reading()))]


def compare(recorded, printed):
    """The comparison of all lines; as many were printed as were recorded."""
    if len(recorded) != len(printed):
        raise AssertionError("%d lines were recorded and %d printed" % (len(recorded), len(printed)))
    found = Comparison()
    for number, (line, answer) in enumerate(zip(recorded, printed), 1):
        found.take(number, line, answer)
    return found
