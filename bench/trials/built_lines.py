"""Lines that are built with several faults at once, or with none: writes, gets, and listeners on what the writes go to."""
import json

DATABASE = "projects/demo/databases/(default)"
FRONT = DATABASE + "/documents/"

ARITHMETIC = ("increment", "maximum", "minimum")
OF_ARRAYS = ("appendMissingElements", "removeAllFromArray")

RIGHT = [("nullValue", None), ("nullValue", "NULL_VALUE"), ("booleanValue", True), ("booleanValue", False), ("integerValue", 7),
         ("integerValue", "-9223372036854775808"), ("integerValue", 9223372036854775807), ("integerValue", "-0"), ("stringValue", ""),
         ("stringValue", "r\u00f6\u00f6m\u0001\U0001f600\"\\/\x7f"), ("timestampValue", "2024-02-29T23:59:59.120Z"),
         ("timestampValue", "0001-01-01T00:00:00.000000001Z"), ("bytesValue", ""), ("bytesValue", "-w"), ("bytesValue", "+w=="),
         ("bytesValue", "AAECAw"), ("referenceValue", "projects/p/databases/d/documents/a/b/c/d")]
WRONG = [("nullValue", 0), ("nullValue", "null"), ("booleanValue", 0), ("integerValue", 1.0), ("integerValue", True), ("integerValue", "01"),
         ("integerValue", "-"), ("integerValue", 9223372036854775808), ("integerValue", "9223372036854775808"), ("integerValue", -0.0),
         ("stringValue", 1), ("timestampValue", "2024-02-30T00:00:00Z"), ("timestampValue", "2024-05-01T00:00:00.Z"), ("timestampValue", 5),
         ("bytesValue", "+x"), ("bytesValue", "-w+w"), ("bytesValue", "+w="), ("bytesValue", "A"), ("bytesValue", []),
         ("referenceValue", "projects/p/databases/d/documents/a"), ("referenceValue", "projects/p/databases//documents/a/b"),
         ("referenceValue", "projects/p/databases/d/documents/a/.."), ("referenceValue", "projects/p/databases/d/documents"),
         ("doubleValue", 1.5), ("geoPointValue", {}), ("doubleValue", None), ("vectorValue", []), ("arrayValue", []), ("mapValue", []),
         ("mapValue", {"fields": {"__type__": {"stringValue": "__vector__"}}}), ("arrayValue", {"values": {}}), ("mapValue", {"field": {}})]
FIELD_NAMES = ["a", "b", "c", "A", "_", "1a", "\u00e9", "\ufffd", "\U0001f600", "a b", "__type_", "__", "____", "__a__", "", "x" * 1500, "x" * 1501]
GOOD_NAMES = ["rooms/a", "rooms/b", "rooms/c", "rooms/d", "rooms/\u00e9", "rooms/\u0000", "rooms/a/chairs/\u00e9", "rooms/a/chairs/b", "rooms\u0000/a"]
DOCUMENT_NAMES = GOOD_NAMES + ["rooms", "", "rooms//a", "rooms/..", "rooms/__a__", "rooms/" + "x" * 1501]


def built_value(chance, wrong, depth):
    """A value in which each leaf is wrong with this chance."""
    if depth and chance.random() < 0.4:
        if chance.random() < 0.5:
            inner = {"values": [built_value(chance, wrong, depth - 1) for _ in range(chance.randint(0, 3))]}
            name = "arrayValue"
        else:
            inner, name = {"fields": built_fields(chance, wrong, depth - 1)}, "mapValue"
        if chance.random() < wrong / 3:
            inner[chance.choice(["a", "x", "values", "fields"])] = chance.choice([None, 1, [], {}])
        tree = {name: inner}
    else:
        tree = dict([chance.choice(WRONG if chance.random() < wrong else RIGHT)])
    if chance.random() < wrong / 3:
        tree[chance.choice(["a", "x", "stringValue", "nullValue", "doubleValue"])] = chance.choice([None, 1, "x"])
    return {} if chance.random() < wrong / 20 else tree


def built_fields(chance, wrong, depth):
    names = FIELD_NAMES if chance.random() < wrong else FIELD_NAMES[:12]
    return {name: built_value(chance, wrong, depth) for name in chance.sample(names, chance.randint(0, 4))}


def nested_value(chance, tree):
    """The value inside about as many arrays and maps as may nest."""
    for _ in range(chance.choice([17, 18, 19, 20, 21, 22])):
        tree = {"arrayValue": {"values": [tree]}} if chance.random() < 0.5 else {"mapValue": {"fields": {chance.choice(FIELD_NAMES[:12]): tree}}}
    return tree


PATHS = ["a", "b", "c", "a.b", "a.b.c", "a.a", "b.a", "c.a.b", "`a`", "`a`.`b`", "`1a`.a", "`\u00e9`.a", "a b".join("``"), "`\\``.a", "_"]
WRONG_PATHS = ["", ".", "a.", ".a", "a..b", "`a", "a`", "``", "`a`b", "`\\a`", "1a", "a b", "\u00e9", "__a__", "a.__b__", "`__a__`", "__name__",
               "__name__.a", "__", "x" * 1500, "x" * 1501, ".".join(["a"] * 20), ".".join(["a"] * 21), ".".join(["a"] * 22), ".".join(["__a__"] * 22)]
INTEGERS = ["0", "1", "-1", "5", "9223372036854775807", "-9223372036854775808", "9223372036854775806", 3]


def plain_value(chance, depth):
    """A value that masks and transforms find something in."""
    kind = chance.randrange(5)
    if depth and kind == 0:
        return {"mapValue": {"fields": plain_fields(chance, depth - 1)}}
    if depth and kind == 1:
        return {"arrayValue": {"values": [plain_value(chance, depth - 1) for _ in range(chance.randint(0, 3))]}}
    return {"integerValue": chance.choice(INTEGERS)} if kind < 4 else dict([chance.choice(RIGHT)])


def plain_fields(chance, depth):
    return {name: plain_value(chance, depth) for name in chance.sample(["a", "b", "c"], chance.randint(0, 3))}


def built_path(chance, wrong):
    return chance.choice(WRONG_PATHS + [5, None] if chance.random() < wrong / 3 else PATHS)


def built_elements(chance, wrong):
    values = [plain_value(chance, 1) if chance.random() < 0.7 else built_value(chance, wrong, 2) for _ in range(chance.randint(0, 3))]
    if values and chance.random() < 0.1:
        values[0] = nested_value(chance, values[0])
    return spoil(chance, wrong / 3, {"values": values})


def built_transform(chance, wrong):
    name = chance.choice(("setToServerValue",) + ARITHMETIC + OF_ARRAYS)
    if name == "setToServerValue":
        operand = "REQUEST_TIME" if chance.random() > wrong / 3 else chance.choice(["REQUEST", 1, {}])
    elif name in OF_ARRAYS:
        operand = built_elements(chance, wrong)
    else:
        operand = {"integerValue": chance.choice(INTEGERS)} if chance.random() > wrong / 3 else dict([chance.choice(WRONG + RIGHT)])
        operand = spoil(chance, wrong / 3, operand)
    return spoil(chance, wrong / 3, {"fieldPath": built_path(chance, wrong), name: operand})


def built_condition(chance, wrong):
    right = [{"exists": True}, {"exists": False}, {"updateTime": "2024-05-01T00:00:01Z"}]
    return spoil(chance, wrong / 3, dict(chance.choice(right if chance.random() > wrong / 3 else [{"exists": 1}, {"updateTime": "x"}, {}, {"exists": True, "updateTime": "2024-05-01T00:00:01Z"}])))


EXTRA_NAMES = ["a", "b", "m", "x", "zz", "updateMask", "currentDocument", "updateTransforms", "select", "offset", "findNearest", "allDescendants", "op", "where"]


def spoil(chance, wrong, tree):
    """The object with a member more, fewer or left out by a null, with this chance each."""
    if chance.random() < wrong:
        tree[chance.choice(EXTRA_NAMES)] = chance.choice([1, None, {}, "x"])
    if tree and chance.random() < wrong / 3:
        name = chance.choice(sorted(tree))
        tree[name] = chance.choice([None, 1, [], "x", {}])
    if tree and chance.random() < wrong / 3:
        del tree[chance.choice(sorted(tree))]
    return tree


def built_name(chance, wrong):
    return FRONT + chance.choice(DOCUMENT_NAMES if chance.random() < wrong else GOOD_NAMES)


def touching_write(chance):
    """A write by which a document is printed as before, where it has the field, and stands elsewhere in an order of the field."""
    return {"update": {"name": FRONT + chance.choice(GOOD_NAMES)}, "updateMask": {}, "updateTransforms": [{"fieldPath": "c", "setToServerValue": "REQUEST_TIME"}]}


def built_write(chance, wrong):
    if chance.random() < 0.2:
        return touching_write(chance)
    if chance.random() < 0.1:
        write = {"delete": built_name(chance, wrong)}
    else:
        fields = plain_fields(chance, 3) if chance.random() < 0.6 else built_fields(chance, wrong, 3)
        if fields and chance.random() < 0.05:
            deep = chance.choice(sorted(fields))
            fields[deep] = nested_value(chance, fields[deep])
        write = {chance.choice(["update"] * 19 + ["transform"]): spoil(chance, wrong, {"fields": fields, "name": built_name(chance, wrong)})}
    if chance.random() < (0.5 if "delete" not in write else wrong / 3):
        write["updateMask"] = spoil(chance, wrong / 3, {"fieldPaths": [built_path(chance, wrong) for _ in range(chance.randint(0, 4))]})
    if chance.random() < (0.4 if "delete" not in write else wrong / 3):
        write["updateTransforms"] = [built_transform(chance, wrong) for _ in range(chance.randint(0, 3))]
    if chance.random() < 0.2:
        write["currentDocument"] = built_condition(chance, wrong)
    return spoil(chance, wrong / 2, write)


def built_write_line(chance, wrong):
    count = chance.choice([1] * 15 + [2] * 4 + [3] * 2) if chance.random() > wrong / 10 else chance.choice([0, 500, 501])
    writes = [built_write(chance, wrong) for _ in range(min(count, 3))]
    writes += writes[:1] * (count - len(writes))
    return spoil(chance, wrong, {"at": chance.choice(["2024-05-01T00:00:01Z", "2024-05-01T00:00:02.5Z", "2024-05-01T00:00:03Z"] * 6 + ["2024-05-01"]), "writes": writes})


# ---- listeners ----------------------------------------------------------------------------------------------------------

IDS = [0, 1, 2, 3, "4", 5, 6, 7, 2147483648, 2**32 - 1]
WRONG_IDS = [2**32, -1, 1.0, "01", "-0", "x", True, None, [], "4294967296"]
QUERY_PATHS = ["a", "a", "b", "b", "c", "c", "c", "a.b", "`a`.a", "__name__"]
WRONG_QUERY_PATHS = WRONG_PATHS + ["`__name__`", "a.__name__", None, 5]
OPERATORS = ["EQUAL", "NOT_EQUAL", "LESS_THAN", "LESS_THAN_OR_EQUAL", "GREATER_THAN", "GREATER_THAN_OR_EQUAL", "IN", "NOT_IN", "ARRAY_CONTAINS", "ARRAY_CONTAINS_ANY"]
WRONG_OPERATORS = ["", "equal", "AND", "OR", "IS_NULL", "IS_NAN", "IS_NOT_NAN", "OPERATOR_UNSPECIFIED", 1, None, []]
PARENTS = [""] * 9 + ["/rooms/a"]
WRONG_PARENTS = ["/", "/rooms", "/rooms/a/chairs", "/rooms//a", "/rooms/..", "/rooms/__a__", "x"]
COLLECTIONS = {"": ["rooms"] * 9 + ["chairs", "rooms\u0000"], "/rooms/a": ["chairs"]}
WRONG_IDS_OF_COLLECTIONS = ["", "..", "a/b", "__a__", "x" * 1500, "x" * 1501, None, 5]
LIMITS = [1, 1, 2, 2, "2", 3, 2147483647, 0, -2147483648]
WRONG_LIMITS = [2147483648, -2147483649, 1.5, "x", True, {}]


def chosen(chance, wrong, right, faulty):
    return chance.choice(faulty if chance.random() < wrong / 3 else right)


def built_field(chance, wrong):
    return spoil(chance, wrong / 3, {"fieldPath": chosen(chance, wrong, QUERY_PATHS, WRONG_QUERY_PATHS)})


def reference(chance):
    return {"referenceValue": FRONT + chance.choice(GOOD_NAMES)}


def built_operand(chance, wrong):
    """A value that writes set too, or the reference of a document."""
    if chance.random() < wrong / 3:
        return built_value(chance, wrong, 2)
    operand = chance.choice([plain_value(chance, 1), plain_value(chance, 0), {"nullValue": None}, reference(chance)])
    return nested_value(chance, operand) if chance.random() < wrong / 10 else operand


def built_field_filter(chance, wrong):
    op = chosen(chance, wrong, OPERATORS + OPERATORS[5:], WRONG_OPERATORS)
    if op in ("IN", "NOT_IN", "ARRAY_CONTAINS_ANY") and chance.random() > wrong / 3:
        count = chance.choice([1, 2, 3] * 6 + [0, 10, 11, 30, 31])
        values = [built_operand(chance, wrong) for _ in range(min(count, 3))]
        operand = {"arrayValue": {"values": values + values[:1] * (count - len(values))}}
    else:
        operand = built_operand(chance, wrong)
    return spoil(chance, wrong / 3, {"field": built_field(chance, wrong), "op": op, "value": operand})


def built_filter(chance, wrong, depth):
    kind = chance.random()
    if depth and kind < 0.35:
        count = chance.choice([1, 2, 2, 3] * 6 + [0])
        filters = [built_filter(chance, wrong, depth - 1) for _ in range(count)]
        tree = {"compositeFilter": spoil(chance, wrong / 3, {"op": chosen(chance, wrong, ["AND", "AND", "OR"], WRONG_OPERATORS), "filters": filters})}
    elif kind < 0.5:
        tree = {"unaryFilter": spoil(chance, wrong / 3, {"op": chosen(chance, wrong, ["IS_NULL", "IS_NOT_NULL"], WRONG_OPERATORS), "field": built_field(chance, wrong)})}
    else:
        tree = {"fieldFilter": built_field_filter(chance, wrong)}
    if depth == 3 and chance.random() < 0.02 + wrong / 10:
        for _ in range(chance.choice([17, 18, 19, 20])):
            tree = {"compositeFilter": {"op": chance.choice(["AND", "OR"]), "filters": [tree]}}
    return spoil(chance, wrong / 10, tree)


def built_order(chance, wrong):
    order = {"field": built_field(chance, wrong)}
    if chance.random() < 0.6:
        order["direction"] = chosen(chance, wrong, ["ASCENDING", "DESCENDING", "DESCENDING", "DIRECTION_UNSPECIFIED"], ["", "ASC", 1, None])
    return spoil(chance, wrong / 3, order)


def built_cursor(chance, wrong):
    count = chance.choice([1, 1, 1, 2] * 5 + [0, 4])
    cursor = {"values": [built_operand(chance, wrong) for _ in range(count)]}
    if chance.random() < 0.6:
        cursor["before"] = chosen(chance, wrong, [True, True, False], [None, 1, "true"])
    return spoil(chance, wrong / 3, cursor)


def built_selector(chance, wrong, parent):
    selector = {"collectionId": chosen(chance, wrong, COLLECTIONS.get(parent, ["rooms"]), WRONG_IDS_OF_COLLECTIONS)}
    if chance.random() < 0.1:
        selector["allDescendants"] = chosen(chance, wrong, [False], [True, 0, None])
    return spoil(chance, wrong / 3, selector)


def built_query(chance, wrong):
    parent = chosen(chance, wrong, PARENTS, WRONG_PARENTS)
    query = {"from": [built_selector(chance, wrong, parent) for _ in range(chance.choice([1] * 58 + [0, 2]))]}
    if chance.random() < 0.1:
        return {"parent": DATABASE + "/documents" + parent, "structuredQuery": {**query, "orderBy": [{"field": {"fieldPath": "c"}}]}}
    if chance.random() < 0.6:
        query["where"] = built_filter(chance, wrong, 3)
    if chance.random() < 0.5:
        query["orderBy"] = [built_order(chance, wrong) for _ in range(chance.choice([1, 1, 2, 3]))]
    for name in ("startAt", "endAt"):
        if chance.random() < 0.2:
            query[name] = built_cursor(chance, wrong)
    if chance.random() < 0.3:
        query["limit"] = chosen(chance, wrong, LIMITS, WRONG_LIMITS)
    return spoil(chance, wrong / 3, {"parent": DATABASE + "/documents" + parent, "structuredQuery": spoil(chance, wrong / 3, query)})


def built_target(chance, wrong):
    if chance.random() < 0.2:
        names = [built_name(chance, wrong) for _ in range(1 if chance.random() > wrong / 3 else chance.choice([0, 2]))]
        tree = {"documents": spoil(chance, wrong / 3, {"documents": names})}
    else:
        tree = {"query": built_query(chance, wrong)}
    return spoil(chance, wrong / 10, tree)


def built_listen_line(chance, wrong):
    return spoil(chance, wrong / 3, {"id": chosen(chance, wrong, IDS, WRONG_IDS), "target": built_target(chance, wrong)})


def built_unlisten_line(chance, wrong):
    return spoil(chance, wrong / 3, {"id": chosen(chance, wrong, IDS, WRONG_IDS)})


def built_line(chance):
    wrong, kind = chance.choice([0, 0, 0.05, 0.2, 0.5]), chance.random()
    if kind < 0.2:
        line = {"get": spoil(chance, wrong, {"name": built_name(chance, wrong)})}
    elif kind < 0.6:
        line = {"write": built_write_line(chance, wrong)}
    elif kind < 0.88:
        line = {"listen": built_listen_line(chance, wrong)}
    else:
        line = {"unlisten": built_unlisten_line(chance, wrong)}
    return json.dumps(line, ensure_ascii=chance.random() < 0.5).encode()
