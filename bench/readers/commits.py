"""Spells and reads commits, from the description in docs/FORMATS.md alone. What is read is a tree, as it is printed in JSON."""
import base64
import datetime
import struct

FIRST_SECOND, LAST_SECOND = -62135596800, 253402300799
DEEPEST = 20
MOST_NAMES = 21


class NoCommit(Exception):
    """The bytes spell no commit."""


# ---- spelling -----------------------------------------------------------------------------------------------------

def spell_text(text):
    return len(text).to_bytes(8, "big") + text


def spell_list(items):
    return len(items).to_bytes(8, "big") + b"".join(items)


def spell_fields(fields):
    """Fields, as pairs of a name and a value; a value is the pair of its kind's byte and what it holds."""
    return spell_list([spell_text(name) + spell_value(value) for name, value in fields])


def spell_value(value):
    kind, content = value
    body = {0: lambda: b"", 1: lambda: bytes([content]), 2: lambda: struct.pack(">q", content), 3: lambda: struct.pack(">qI", *content),
            4: lambda: struct.pack(">qI", *content),
            5: lambda: spell_text(content), 6: lambda: spell_text(content),
            7: lambda: spell_text(content[0]) + spell_text(content[1]) + spell_list(list(map(spell_text, content[2]))),
            8: lambda: spell_list(list(map(spell_value, content))), 9: lambda: spell_fields(content)}
    return bytes([kind]) + body[kind]()


def spell_path(names):
    return spell_list(list(map(spell_text, names)))


def spell_condition(condition):
    """None, a boolean, or a time as a pair of seconds and nanoseconds."""
    if condition is None:
        return b"\0"
    return b"\2" + struct.pack(">qI", *condition) if isinstance(condition, tuple) else b"\1" + bytes([condition])


def spell_transform(path, kind, operand):
    """A transform of its kind's byte; its operand is None, a number, or a list of values."""
    rest = b"" if operand is None else struct.pack(">q", operand) if isinstance(operand, int) else spell_list(list(map(spell_value, operand)))
    return spell_path(path) + bytes([kind]) + rest


def spell_update(key, fields, mask=None, transforms=(), condition=None):
    """An update. The key is a list of segments, the fields are pairs of a name and a value, the mask is a list of paths."""
    spelled_mask = b"\0" if mask is None else b"\1" + spell_list(list(map(spell_path, mask)))
    return b"\1" + spell_path(key) + spell_fields(fields) + spelled_mask + spell_list([spell_transform(*each) for each in transforms]) + spell_condition(condition)


def spell_delete(key, condition=None):
    return b"\2" + spell_path(key) + spell_condition(condition)


def spell_enqueue(batch, seconds, nanos, writes):
    """The bytes of an Enqueue commit of these spelled writes."""
    return b"\1\1" + batch.to_bytes(8, "big") + struct.pack(">qI", seconds, nanos) + spell_list(writes)


def spell_option(item):
    return b"\0" if item is None else b"\1" + item


def spell_ids(ids):
    return spell_list([number.to_bytes(4, "big") for number in ids])


def spell_keys(keys):
    return spell_list(list(map(spell_path, keys)))


def spell_result(time, values):
    return spell_option(None if time is None else struct.pack(">qI", *time)) + spell_list(list(map(spell_value, values)))


def spell_entry(key, fields, version):
    """What was seen of a key: fields, or None where there is no document."""
    seen = b"\2" if fields is None else b"\1" + spell_fields(fields)
    return spell_path(key) + seen + struct.pack(">qI", *version)


def spell_row(number, token, keys):
    return number.to_bytes(4, "big") + spell_text(token) + spell_keys(keys)


def spell_filter(kind, *content):
    """Of kind 1 how filters are joined, and these; of kind 2 a path, an operator and an operand; of kind 3 a test and a path."""
    body = {1: lambda op, filters: bytes([op]) + spell_list([spell_filter(*each) for each in filters]),
            2: lambda path, op, operand: spell_path(path) + bytes([op]) + spell_value(operand), 3: lambda op, path: bytes([op]) + spell_path(path)}
    return bytes([kind]) + body[kind](*content)


def spell_cursor(cursor):
    return None if cursor is None else spell_list(list(map(spell_value, cursor[0]))) + bytes([cursor[1]])


def spell_query(collection, where, orders, start_at, end_at, limit):
    """A target that is a query; an order is a path, and 1 or 2."""
    return (b"\2" + spell_path(collection) + spell_option(where and spell_filter(*where)) + spell_list([spell_path(path) + bytes([direction]) for path, direction in orders])
            + spell_option(spell_cursor(start_at)) + spell_option(spell_cursor(end_at)) + spell_option(None if limit is None else limit.to_bytes(4, "big")))


# ---- reading ------------------------------------------------------------------------------------------------------

class Reader:
    def __init__(self, content):
        self.content, self.at = content, 0

    def take(self, count):
        if count > len(self.content) - self.at:
            raise NoCommit
        self.at += count
        return self.content[self.at - count:self.at]

    def number(self):
        return int.from_bytes(self.take(8), "big")

    def byte(self, wanted):
        if self.take(1)[0] != wanted:
            raise NoCommit

    def text(self):
        text = self.take(self.number())
        try:
            text.decode("utf-8")
        except UnicodeDecodeError:
            raise NoCommit
        return text


def is_reserved(name):
    return len(name) >= 4 and name.startswith(b"__") and name.endswith(b"__")


def is_field_name(name):
    return 1 <= len(name) <= 1500 and not is_reserved(name)


def is_segment(name):
    return is_field_name(name) and b"/" not in name and name not in (b".", b"..")


def read_list(reader, item):
    found = []
    for _ in range(reader.number()):
        found.append(item())
    return found


def read_time(reader):
    """A time, printed with the fewest of 0, 3, 6 and 9 digits that keep it."""
    seconds, nanos = struct.unpack(">qI", reader.take(12))
    if not FIRST_SECOND <= seconds <= LAST_SECOND or nanos >= 1_000_000_000:
        raise NoCommit
    digits = "%09d" % nanos
    while digits.endswith("000"):
        digits = digits[:-3]
    moment = datetime.datetime(1, 1, 1) + datetime.timedelta(seconds=seconds - FIRST_SECOND)
    return moment.isoformat() + ("." + digits if digits else "") + "Z"


def read_name(reader):
    project, database = reader.text(), reader.text()
    if not is_segment(project) or not is_segment(database):
        raise NoCommit
    path = b"/".join(read_key(reader))
    return b"projects/%s/databases/%s/documents/%s" % (project, database, path)


def read_boolean(reader):
    byte = reader.take(1)[0]
    if byte > 1:
        raise NoCommit
    return byte == 1


def read_value(reader, deepest):
    """A value, as it is printed in JSON; arrays and maps may nest so deep."""
    kind = reader.take(1)[0]
    scalars = {
        0: lambda: {"nullValue": None},
        1: lambda: {"booleanValue": read_boolean(reader)},
        2: lambda: {"integerValue": str(struct.unpack(">q", reader.take(8))[0])},
        3: lambda: {"timestampValue": read_time(reader)},
        5: lambda: {"stringValue": reader.text().decode()},
        6: lambda: {"bytesValue": base64.b64encode(reader.take(reader.number())).decode()},
        7: lambda: {"referenceValue": read_name(reader).decode()},
    }
    if kind in scalars:
        return scalars[kind]()
    if kind not in (8, 9) or deepest == 0:
        raise NoCommit
    if kind == 8:
        values = read_list(reader, lambda: read_value(reader, deepest - 1))
        return {"arrayValue": {"values": values} if values else {}}
    fields = read_fields(reader, deepest - 1)
    return {"mapValue": {"fields": fields} if fields else {}}


def read_fields(reader, deepest):
    pairs = read_list(reader, lambda: (reader.text(), read_value(reader, deepest)))
    names = [name for name, _ in pairs]
    if not all(map(is_field_name, names)) or any(a >= b for a, b in zip(names, names[1:])):
        raise NoCommit
    return {name.decode(): value for name, value in pairs}


def read_key(reader):
    key = read_list(reader, reader.text)
    if not key or len(key) % 2 or not all(map(is_segment, key)):
        raise NoCommit
    return key


def read_path(reader):
    """The names of a path of a field in a write."""
    names = read_list(reader, reader.text)
    if not 1 <= len(names) <= MOST_NAMES or not all(map(is_field_name, names)):
        raise NoCommit
    return names


def printed_path(names):
    return ".".join("`" + name.decode().replace("\\", "\\\\").replace("`", "\\`") + "`" for name in names)


def read_condition(reader):
    kind = reader.take(1)[0]
    if kind > 2:
        raise NoCommit
    return [lambda: None, lambda: {"exists": read_boolean(reader)}, lambda: {"updateTime": read_time(reader)}][kind]()


def read_transform(reader):
    """A transform, as its tree in a line."""
    names = read_path(reader)
    kind = reader.take(1)[0]
    name = {1: "setToServerValue", 2: "increment", 3: "maximum", 4: "minimum", 5: "appendMissingElements", 6: "removeAllFromArray"}.get(kind)
    if name is None or kind > 4 and len(names) > DEEPEST:
        raise NoCommit
    if kind == 1:
        operand = "REQUEST_TIME"
    elif kind < 5:
        operand = {"integerValue": str(struct.unpack(">q", reader.take(8))[0])}
    else:
        operand = {"values": read_list(reader, lambda: read_value(reader, DEEPEST - len(names)))}
    return {"fieldPath": printed_path(names), name: operand}


def read_write(reader):
    """A write, as its tree in a line; its name is the path of its key."""
    kind = reader.take(1)[0]
    if kind not in (1, 2):
        raise NoCommit
    name = b"/".join(read_key(reader)).decode()
    if kind == 2:
        return {"delete": name, "currentDocument": read_condition(reader)}
    write = {"update": {"name": name, "fields": read_fields(reader, DEEPEST)}}
    if read_boolean(reader):
        write["updateMask"] = {"fieldPaths": list(map(printed_path, read_list(reader, lambda: read_path(reader))))}
    write["updateTransforms"] = read_list(reader, lambda: read_transform(reader))
    write["currentDocument"] = read_condition(reader)
    return write


# ---- the members of each kind of commit

KINDS = ["Enqueue", "Acknowledge", "Reject", "Allocate", "Point", "Reset", "Drop"]
OPERATORS = ["EQUAL", "LESS_THAN", "LESS_THAN_OR_EQUAL", "GREATER_THAN", "GREATER_THAN_OR_EQUAL", "NOT_EQUAL", "IN", "NOT_IN", "ARRAY_CONTAINS", "ARRAY_CONTAINS_ANY"]
TESTS = ["IS_NULL", "IS_NOT_NULL"]
DOCUMENT_NAME = [b"__name__"]


def read_one(reader, names):
    """One of the names, by a byte that counts from 1."""
    number = reader.take(1)[0]
    if not 1 <= number <= len(names):
        raise NoCommit
    return names[number - 1]


def read_option(reader, item):
    return item() if read_boolean(reader) else None


def read_ascending(reader, item, part=lambda item: item):
    """Items whose parts ascend strictly."""
    items = read_list(reader, item)
    parts = list(map(part, items))
    if any(a >= b for a, b in zip(parts, parts[1:])):
        raise NoCommit
    return items


def read_id(reader):
    return int.from_bytes(reader.take(4), "big")


def read_ids(reader):
    return read_ascending(reader, lambda: read_id(reader))


def read_keys(reader):
    return [printed_key(key) for key in read_ascending(reader, lambda: read_key(reader))]


def printed_key(key):
    return b"/".join(key).decode()


def read_result(reader):
    return {"updateTime": read_option(reader, lambda: read_time(reader)), "transformResults": read_list(reader, lambda: read_value(reader, DEEPEST))}


def read_entry(reader):
    key = read_key(reader)
    if read_one(reader, [True, False]):
        return key, {"fields": read_fields(reader, DEEPEST), "version": read_time(reader)}
    return key, {"missingSince": read_time(reader)}


def read_row(reader):
    return {"id": read_id(reader), "token": base64.b64encode(reader.take(reader.number())).decode(), "keys": read_keys(reader)}


def read_query_path(reader):
    names = read_list(reader, reader.text)
    if names != DOCUMENT_NAME and (not 1 <= len(names) <= MOST_NAMES or not all(map(is_field_name, names))):
        raise NoCommit
    return printed_path(names)


def read_filter(reader, deepest):
    if deepest == 0:
        raise NoCommit
    kind = read_one(reader, ["composite", "field", "unary"])
    if kind == "composite":
        return {"op": read_one(reader, ["AND", "OR"]), "filters": read_list(reader, lambda: read_filter(reader, deepest - 1))}
    if kind == "field":
        return {"field": read_query_path(reader), "op": read_one(reader, OPERATORS), "value": read_value(reader, DEEPEST)}
    return {"op": read_one(reader, TESTS), "field": read_query_path(reader)}


def read_order(reader):
    return {"field": read_query_path(reader), "direction": read_one(reader, ["ASCENDING", "DESCENDING"])}


def read_cursor(reader):
    return {"values": read_list(reader, lambda: read_value(reader, DEEPEST)), "before": read_boolean(reader)}


def filters_in(found):
    return [found] + [inner for each in found.get("filters", []) for inner in filters_in(each)]


def keeps_rules(query):
    """Whether a checked query is so: it has its whole list of orders, and breaks no rule of queries."""
    filters = filters_in(query["where"]) if query["where"] else []
    operators = [each["op"] for each in filters]
    orders = [order["field"] for order in query["orderBy"]]
    unequal = [each["field"] for each in filters if each["op"] in OPERATORS[1:6] + ["NOT_IN", "IS_NOT_NULL"]]
    lists = [(each, len(each["value"].get("arrayValue", {}).get("values", []))) for each in filters if each["op"] in ("IN", "NOT_IN", "ARRAY_CONTAINS_ANY")]
    repeated = [each for each in filters if each["op"] == "AND" and sum(member["op"].startswith("ARRAY_") for member in each["filters"]) > 1]
    cursors = [cursor for cursor in (query["startAt"], query["endAt"]) if cursor]
    return (set(unequal) | {printed_path(DOCUMENT_NAME)} <= set(orders)
            and operators.count("NOT_EQUAL") + operators.count("NOT_IN") <= 1
            and not ("NOT_IN" in operators and {"OR", "IN", "ARRAY_CONTAINS_ANY"} & set(operators))
            and all(each["filters"] for each in filters if "filters" in each)
            and all(1 <= count <= (10 if each["op"] == "NOT_IN" else 30) for each, count in lists)
            and all(1 <= len(cursor["values"]) <= len(orders) for cursor in cursors)
            and not repeated)


def read_target(reader):
    if read_one(reader, ["document", "query"]) == "document":
        return {"document": printed_key(read_key(reader))}
    collection = read_list(reader, reader.text)
    query = {"where": read_option(reader, lambda: read_filter(reader, DEEPEST)), "orderBy": read_list(reader, lambda: read_order(reader)),
             "startAt": read_option(reader, lambda: read_cursor(reader)), "endAt": read_option(reader, lambda: read_cursor(reader)),
             "limit": read_option(reader, lambda: read_id(reader))}
    if len(collection) % 2 == 0 or not all(map(is_segment, collection)) or query["limit"] is not None and not 1 <= query["limit"] < 2**31 or not keeps_rules(query):
        raise NoCommit
    return {"from": printed_key(collection), **query}


def read_point(reader):
    at = read_time(reader)
    entries = read_ascending(reader, lambda: read_entry(reader), lambda entry: entry[0])
    return at, {printed_key(key): entry for key, entry in entries}, read_ascending(reader, lambda: read_row(reader), lambda row: row["id"])


MEMBERS = {
    "Enqueue": lambda reader: (reader.number(), read_time(reader), read_list(reader, lambda: read_write(reader))),
    "Acknowledge": lambda reader: (reader.number(), read_time(reader), read_list(reader, lambda: read_result(reader))),
    "Reject": lambda reader: (reader.number(),),
    "Allocate": lambda reader: (read_id(reader), read_target(reader)),
    "Point": read_point,
    "Reset": lambda reader: (read_ids(reader),),
    "Drop": lambda reader: (read_keys(reader), read_ids(reader)),
}


def read_commit(payload):
    """A commit's kind, and its members."""
    reader = Reader(payload)
    reader.byte(1)
    kind = read_one(reader, KINDS)
    members = MEMBERS[kind](reader)
    if reader.at != len(payload):
        raise NoCommit
    return kind, members
