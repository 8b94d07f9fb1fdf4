"""What the two streams and another client ask of the backend, so that it tells messages of many kinds."""
import base64
import json
import random

from backend import ROOT

FRONT = ROOT + "/documents/"
WORDS = ["", "a", "\u00e4pfel", "\U0001f3e0 home", "tab\tand \"quotes\" \\ /", "\u0000\u001f\u007f\u2028", "z" * 1400]
TIMES = ["0001-01-01T00:00:00Z", "1969-12-31T23:59:59.999999Z", "1970-01-01T00:00:00Z", "2024-02-29T12:00:00.120Z",
         "2024-05-01T00:00:00.000001Z", "2024-05-01T00:00:00.123456789Z", "9999-12-31T23:59:59.999999Z"]
INTEGERS = [0, 1, -1, 2**53 + 1, 2**63 - 1, -(2**63)]
BYTES = [b"", b"\x00", b"\xfb\xff\xfe", bytes(range(256))]
REFERENCES = [FRONT + "rooms/a", FRONT + "rooms/a/messages/m 1", FRONT + "r\u00f6ume/\U0001f3e0",
              "projects/demo/databases/second/documents/a/b", "projects/other/databases/(default)/documents/a/b/c/d"]
FIELD_NAMES = ["n", "with space", "dots.and`ticks`", "\u00fcber", "back\\slash", "_", "0", "\"q\"", "x" * 200]
UNSUPPORTED = {
    "double": {"doubleValue": 1.5},
    "not_a_number": {"doubleValue": "NaN"},
    "place": {"geoPointValue": {"latitude": 1.5, "longitude": -2}},
    "vector": {"mapValue": {"fields": {"__type__": {"stringValue": "__vector__"},
                                       "value": {"arrayValue": {"values": [{"doubleValue": 1}]}}}}},
}


def whole(number):
    return {"integerValue": str(number)}


def text(word):
    return {"stringValue": word}


def time(word):
    return {"timestampValue": word}


def array(values):
    return {"arrayValue": {"values": values}}


def mapping(fields):
    return {"mapValue": {"fields": fields}}


def plain_values():
    """Values of every kind that is stored, but for arrays and maps."""
    found = [{"nullValue": None}, {"booleanValue": True}, {"booleanValue": False}]
    found += [whole(number) for number in INTEGERS] + [time(word) for word in TIMES] + [text(word) for word in WORDS]
    found += [{"bytesValue": base64.b64encode(content).decode()} for content in BYTES]
    return found + [{"referenceValue": name} for name in REFERENCES]


def nested(chance, depth, inside_array=False):
    """A value at random; an array never stands directly in an array, which the backend refuses."""
    kind = chance.randrange(4) if depth else 0
    if kind == 2 and not inside_array:
        return array([nested(chance, depth - 1, True) for _ in range(chance.randrange(4))])
    if kind == 3:
        names = chance.sample(FIELD_NAMES, chance.randrange(4))
        return mapping({name: nested(chance, depth - 1) for name in names})
    return chance.choice(plain_values())


def deep(depth):
    """Arrays in maps in arrays, so deep."""
    value = whole(depth)
    for level in range(depth):
        value = mapping({"m": value}) if level % 2 else array([value])
    return value


def update(path, fields, mask=None, **rest):
    write = {"update": {"name": FRONT + path, "fields": fields}, **rest}
    if mask is not None:
        write["updateMask"] = {"fieldPaths": mask}
    return write


def delete(path, **rest):
    return {"delete": FRONT + path, **rest}


def transforms(path, *each):
    return update(path, {}, [], updateTransforms=list(each))


def document_target(path):
    return {"documents": {"documents": [FRONT + path]}}


def query_target(collection, where=None, order=(), parent="", **rest):
    """A target: a query of the collection, with a filter, an order and a limit or cursors."""
    query = {"from": [{"collectionId": collection}], **rest}
    if where:
        query["where"] = where
    if order:
        query["orderBy"] = [{"field": {"fieldPath": path}, "direction": direction} for path, direction in order]
    return {"query": {"parent": (FRONT + parent).rstrip("/"), "structuredQuery": query}}


def compare(path, operator, value):
    return {"fieldFilter": {"field": {"fieldPath": path}, "op": operator, "value": value}}


def unary(path, operator):
    return {"unaryFilter": {"field": {"fieldPath": path}, "op": operator}}


def joined(operator, *filters):
    return {"compositeFilter": {"op": operator, "filters": list(filters)}}


class Workload:
    """The steps of a trial over one backend; each waits until the streams are quiet."""

    def __init__(self, backend, seed):
        self.backend = backend
        self.chance = random.Random(seed)
        self.token = None

    # ---- the streams

    def open_watch(self):
        self.backend.send({"open": {"stream": "watch", "database": ROOT}})

    def open_write(self):
        self.backend.send({"open": {"stream": "write", "database": ROOT}})
        self.backend.send({"send": {"write": {"database": ROOT}}})
        self.backend.settle(self.keep_token)

    def keep_token(self, line):
        if "written" in line:
            self.token = line["written"].get("streamToken", self.token)
        return "written" in line or line.get("close", {}).get("stream") == "write"

    def add(self, number, target, **rest):
        """Adds the target, and waits for its point or its end."""
        request = {"database": ROOT, "addTarget": {"targetId": number, **target, **rest}}
        self.backend.send({"send": {"listen": request}})

        def is_answered(line):
            change = line.get("watch", {}).get("targetChange", {})
            ends = change.get("targetChangeType") in ("CURRENT", "REMOVE") and number in change.get("targetIds", [])
            return ends or line.get("close", {}).get("stream") == "watch"

        return self.backend.settle(is_answered)

    def remove(self, number):
        self.backend.send({"send": {"listen": {"database": ROOT, "removeTarget": number}}})
        self.backend.settle(quiet=0.5)

    def batch(self, *writes):
        """Sends the writes on the write stream, and waits for their results or the stream's end."""
        self.backend.send({"send": {"write": {"streamToken": self.token, "writes": list(writes)}}})
        self.backend.settle(self.keep_token)

    def commit(self, *writes):
        """The writes of another client, which must be taken."""
        answer = self.backend.call("commit", {"writes": list(writes)})
        if "responses" not in answer:
            raise AssertionError("a commit was refused: %s" % answer)

    # ---- the steps

    def run(self):
        self.open_watch()
        self.open_write()
        self.seed()
        self.listen()
        self.write_values()
        self.transform()
        self.check_conditions()
        self.leave_and_delete()
        self.write_at_random()
        self.resume()
        self.write_unsupported()
        self.be_refused()

    def seed(self):
        """Documents of another client, before any listener."""
        values = plain_values()
        self.commit(update("rooms/all", {"v%02d" % place: value for place, value in enumerate(values)}))
        self.commit(update("rooms/empty", {}), update("rooms/deep", {"d": deep(20)}))
        both = array([mapping({}), mapping({"a": array([])})])
        self.commit(update("rooms/hollow", {"a": array([]), "m": mapping({}), "both": both}))
        self.commit(update("rooms/names", {name: text(name) for name in FIELD_NAMES}))
        self.commit(update("r\u00f6ume/\U0001f3e0", {"n": whole(1)}), update("rooms/a b%41{}", {"n": whole(2)}))
        for number in range(8):
            tags = array([text("t%d" % (number % 3)), whole(number)])
            fields = {"n": whole(number), "tags": tags, "even": {"booleanValue": number % 2 == 0}}
            self.commit(update("rooms/r%d" % number, fields), update("rooms/r0/messages/m%d" % number, {"n": whole(number)}))

    def listen(self):
        """Document targets and queries, of all that a query may have."""
        paths = ["rooms/all", "rooms/missing", "rooms/r1", "r\u00f6ume/\U0001f3e0", "rooms/a b%41{}", "rooms/r0/messages/m1"]
        for number, path in enumerate(paths, 2):
            self.add(number, document_target(path))
        self.add(20, query_target("rooms"))
        self.add(22, query_target("rooms", compare("n", "GREATER_THAN_OR_EQUAL", whole(3)), [("n", "DESCENDING")], limit=3))
        both = joined("AND", compare("even", "EQUAL", {"booleanValue": True}), compare("n", "LESS_THAN", whole(6)))
        self.add(24, query_target("rooms", both))
        either = joined("OR", compare("n", "EQUAL", whole(1)), compare("tags", "ARRAY_CONTAINS", text("t2")))
        self.add(26, query_target("rooms", either))
        self.add(28, query_target("rooms", compare("n", "IN", array([whole(1), whole(4), text("x")]))))
        self.add(30, query_target("rooms", compare("tags", "ARRAY_CONTAINS_ANY", array([text("t0"), whole(7)]))))
        self.add(32, query_target("rooms", compare("n", "NOT_IN", array([whole(1), whole(4)]))))
        self.add(34, query_target("rooms", unary("even", "IS_NOT_NULL"), [("even", "ASCENDING")]))
        cursors = {"startAt": {"values": [whole(2)], "before": True}, "endAt": {"values": [whole(5)], "before": False}}
        self.add(36, query_target("messages", None, [("n", "ASCENDING")], "rooms/r0", **cursors))
        self.add(38, query_target("nothing"))
        self.add(40, query_target("rooms", compare("n", "NOT_EQUAL", whole(2)), limit=2))

    def write_values(self):
        """Updates on the write stream, whole and masked, and several in a batch."""
        for place, value in enumerate(plain_values()):
            self.batch(update("rooms/w%d" % (place % 4), {"n": whole(place), "v": value}))
        two = {"n": whole(9), "with space": text("x")}
        self.batch(update("rooms/r1", two, ["n", "`with space`"]), update("rooms/r2", {}, ["even"]))
        self.batch(*[update("rooms/b%d" % number, {"n": whole(number)}) for number in range(6)])
        self.batch(update("rooms/r3", {"m": mapping({"a": whole(1), "b": array([whole(1), text("2")])})}, ["m.a", "m.b"]))

    def transform(self):
        """Transforms of every kind, with what each made of its field."""
        server = {"fieldPath": "at", "setToServerValue": "REQUEST_TIME"}
        grown, tags = {"fieldPath": "n", "increment": whole(2**62)}, {"fieldPath": "tags"}
        least = [{"fieldPath": "n", "minimum": whole(-7)}, {"fieldPath": "new", "minimum": whole(3)}]
        self.batch(transforms("rooms/t1", server))
        self.batch(transforms("rooms/t1", grown, grown))
        self.batch(transforms("rooms/t1", {"fieldPath": "n", "maximum": whole(5)}, *least))
        self.batch(transforms("rooms/t1", {**tags, "appendMissingElements": {"values": [text("a"), whole(1), text("a")]}}))
        self.batch(transforms("rooms/t1", {**tags, "removeAllFromArray": {"values": [text("a")]}}, server))
        inner = {"fieldPath": "m.at", "setToServerValue": "REQUEST_TIME"}
        both = [{"fieldPath": "n", "increment": whole(1)}, inner]
        self.batch({**update("rooms/t2", {"n": whole(1), "v": text("kept")}), "updateTransforms": both})
        less = [{"fieldPath": "n", "increment": whole(-3)}]
        self.batch({"transform": {"document": FRONT + "rooms/t2", "fieldTransforms": less}})
        more = transforms("rooms/t2", {"fieldPath": "n", "increment": whole(4)})
        self.batch(delete("rooms/t2"), more, update("rooms/t3", {"n": whole(0)}))

    def check_conditions(self):
        """Preconditions that hold, and ones that don't, at which the write stream ends."""
        there, absent = {"exists": True}, {"exists": False}
        self.batch(update("rooms/c1", {"n": whole(1)}, currentDocument=absent))
        self.batch(update("rooms/c1", {"n": whole(2)}, currentDocument=there), delete("rooms/never", currentDocument=absent))
        answer = self.backend.call("batchGet", {"documents": [FRONT + "rooms/c1"]})
        version = {"updateTime": answer["responses"][0]["found"]["updateTime"]}
        self.batch(update("rooms/c1", {"n": whole(3)}, currentDocument=version))
        refused = [update("rooms/c1", {}, currentDocument=absent), update("rooms/never", {}, currentDocument=there),
                   delete("rooms/c1", currentDocument=version)]
        for write in refused:
            self.batch(write)
            self.open_write()

    def leave_and_delete(self):
        """Documents that leave an answer, come back and are deleted while they are listened to."""
        self.commit(update("rooms/r4", {"n": whole(1)}, ["n"]), update("rooms/r5", {"n": text("no number")}, ["n"]))
        self.commit(update("rooms/r4", {"n": whole(7)}, ["n"]))
        self.batch(update("rooms/r6", {"even": {"booleanValue": False}}, ["even"]))
        self.commit(update("rooms/missing", {"n": whole(1)}))
        self.commit(delete("rooms/missing"), delete("rooms/r7"))
        self.batch(delete("rooms/all"), delete("rooms/r3"), delete("rooms/never"))
        self.commit(delete("rooms/r1"))
        self.commit(delete("rooms/r0/messages/m3"))
        for number in (22, 30, 32, 4):
            self.remove(number)

    def write_at_random(self):
        """Documents of nested values at random, by both clients; a few are listened to."""
        for number in (24, 26, 28, 34, 40):
            self.remove(number)
        self.add(50, query_target("halls"))
        for number in range(24):
            names = self.chance.sample(FIELD_NAMES, self.chance.randrange(1, 5))
            write = update("halls/h%d" % self.chance.randrange(5), {name: nested(self.chance, 5) for name in names})
            (self.batch if number % 2 else self.commit)(write)

    def resume(self):
        """Targets that go on from a token or from a time, and one that ends by itself."""
        points = [change for change in (line["watch"].get("targetChange", {}) for line in self.messages("watch"))
                  if change.get("resumeToken") and change.get("readTime")]
        self.remove(50)
        self.add(52, query_target("halls"), resumeToken=points[-1]["resumeToken"], expectedCount=5)
        self.add(54, query_target("halls", limit=2), readTime=points[-1]["readTime"])
        self.add(56, document_target("rooms/r2"), once=True)
        self.commit(delete("halls/h0"))

    def messages(self, word):
        """What a stream has told so far."""
        return [line for line in map(json.loads, list(self.backend.lines)) if word in line]

    def write_unsupported(self):
        """Documents with what isn't stored, each listened to alone."""
        for place, (name, value) in enumerate(UNSUPPORTED.items()):
            self.commit(update("odd/" + name, {"v": array([value]) if place == 1 else value}))
            self.add(60 + place, document_target("odd/" + name))
        self.commit(update("odd/__id7__", {"n": whole(1)}))
        self.add(70, document_target("odd/__id7__"))
        self.batch(transforms("rooms/t4", {"fieldPath": "n", "increment": {"doubleValue": 1.5}}))

    def be_refused(self):
        """Listens and writes that the backend refuses."""
        self.batch(update("secrets/s", {}))
        self.open_write()
        self.batch(update("rooms/bad", {"a": array([array([])])}))
        targets = [query_target("secrets"), document_target("secrets/s"), query_target("rooms", limit=-1),
                   query_target("rooms", compare("n", "IN", array([]))), {"query": {"parent": "nowhere", "structuredQuery": {}}}]
        for target in targets:
            self.open_watch()
            self.add(80, document_target("rooms/r2"))
            self.add(82, target)
            self.backend.send({"close": {"stream": "watch"}})
            self.backend.settle(quiet=0.5)
