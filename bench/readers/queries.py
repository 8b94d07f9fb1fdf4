"""Targets as another reader has them, by the description in docs/FORMATS.md alone: the faults of their trees, the rules that queries
keep, the whole list of orders, and the answer, said of each document by who comes before it.

A path is the tuple of its names, a value is as effects.py has it. A filter is as commits.py reads it, but for its path and its operand.
"""
import base64
import operator

from readers.commits import OPERATORS, TESTS, filters_in, printed_path
from readers.effects import PLAIN_NAME, at_path, given, path_names, printed_value, read_whole, stored_value, stored_values
from readers.faults import (DEEP, DEEPEST_VALUE, NAME, SHAPE, UNSUPPORTED, bad_member, in_order, is_segment, kinds_of, name_faults, object_faults,
                            path_faults, value_faults, values_faults)
from readers.store import moment

DEEPEST_FILTER = 20
OWN_NAME = ("__name__",)
DIRECTIONS = ["ASCENDING", "DESCENDING"]
UNTAKEN_TESTS = ["IS_NAN", "IS_NOT_NAN"]
OF_LISTS = {"IN": 30, "NOT_IN": 10, "ARRAY_CONTAINS_ANY": 30}  # the most operands of each
IN_ARRAYS = ("ARRAY_CONTAINS", "ARRAY_CONTAINS_ANY")
ORDERING = ("LESS_THAN", "LESS_THAN_OR_EQUAL", "GREATER_THAN", "GREATER_THAN_OR_EQUAL", "NOT_EQUAL", "NOT_IN", "IS_NOT_NULL")


# ---- the faults of a target's tree ----------------------------------------------------------------------------------

def whole_faults(tree, name, least, greatest):
    """The faults of what is to be a whole number in this range."""
    number = read_whole(tree)
    if number is None or not least <= number <= greatest:
        yield (SHAPE, name)


def constant_faults(tree, name, taken, untaken=()):
    if isinstance(tree, str) and tree in untaken:
        yield (UNSUPPORTED, tree)
    elif not isinstance(tree, str) or tree not in taken:
        yield (SHAPE, name)


def boolean_faults(tree, name):
    if not isinstance(tree, bool):
        yield (SHAPE, name)


def list_faults(tree, name, item_faults):
    if not isinstance(tree, list):
        yield (SHAPE, name)
        return
    for item in tree:
        yield from item_faults(item, name)


def with_empty(tree, name):
    """The object, in which the text of that name is empty where it is left out."""
    return {name: "", **dict(given(tree))} if isinstance(tree, dict) else tree


def field_faults(tree):
    def path(text):
        if not isinstance(text, str) or path_names(text) != list(OWN_NAME):
            yield from path_faults("fieldPath", text)
    yield from object_faults(with_empty(tree, "fieldPath"), "field", {"fieldPath": path})


def operand_faults(tree, op):
    """The faults of a filter's value, which is an array where the operator asks for a list."""
    if op in OF_LISTS and isinstance(tree, dict) and kinds_of(tree) != ["arrayValue"]:
        yield (SHAPE, "value")
    else:
        yield from value_faults(tree, "value", DEEPEST_VALUE)


def field_filter_faults(tree):
    asked = tree.get("op") if isinstance(tree, dict) and isinstance(tree.get("op"), str) else ""
    readers = {"field": field_faults, "op": lambda op: constant_faults(op, "op", OPERATORS), "value": lambda value: operand_faults(value, asked)}
    yield from object_faults(tree, "fieldFilter", readers, ("field", "op", "value"))


def unary_filter_faults(tree):
    readers = {"field": field_faults, "op": lambda op: constant_faults(op, "op", TESTS, UNTAKEN_TESTS)}
    yield from object_faults(tree, "unaryFilter", readers, ("field", "op"))


def filter_faults(tree, name, left):
    """The faults of a filter, where so many may still nest."""
    if not isinstance(tree, dict) or sum(tree.get(kind) is not None for kind in ("compositeFilter", "fieldFilter", "unaryFilter")) != 1:
        yield (SHAPE, name)
        return
    if left == 0:
        yield (DEEP,)

    def composite_faults(inner):
        def filters(items):
            yield from list_faults(items, "filters", lambda item, name: filter_faults(item, name, max(left - 1, 0)))
        yield from object_faults(inner, "compositeFilter", {"filters": filters, "op": lambda op: constant_faults(op, "op", ["AND", "OR"])}, ("op",))
    yield from in_order(tree, {"compositeFilter": composite_faults, "fieldFilter": field_filter_faults, "unaryFilter": unary_filter_faults}, (), bad_member)


def selector_faults(tree, name):
    def descendants(inner):
        yield from boolean_faults(inner, "allDescendants")
        if inner is True:
            yield (UNSUPPORTED, "allDescendants")

    def collection(inner):
        if not isinstance(inner, str):
            yield (SHAPE, "collectionId")
        elif not is_segment(inner):
            yield (NAME, "BadSegment", inner)
    yield from object_faults(with_empty(tree, "collectionId"), name, {"allDescendants": descendants, "collectionId": collection})


def order_faults(tree, name):
    readers = {"direction": lambda inner: constant_faults(inner, "direction", DIRECTIONS + ["DIRECTION_UNSPECIFIED"]), "field": field_faults}
    yield from object_faults(tree, name, readers, ("field",))


def cursor_faults(tree, name):
    readers = {"before": lambda inner: boolean_faults(inner, "before"), "values": lambda items: values_faults(items, DEEPEST_VALUE)}
    yield from object_faults(tree, name, readers)


def structured_faults(tree):
    readers = {
        "from": lambda items: list_faults(items, "from", selector_faults), "where": lambda inner: filter_faults(inner, "where", DEEPEST_FILTER),
        "orderBy": lambda items: list_faults(items, "orderBy", order_faults), "startAt": lambda inner: cursor_faults(inner, "startAt"),
        "endAt": lambda inner: cursor_faults(inner, "endAt"), "limit": lambda inner: whole_faults(inner, "limit", -2**31, 2**31 - 1)}
    for name in ("select", "offset", "findNearest"):
        readers[name] = lambda inner, name=name: iter([(UNSUPPORTED, name)])
    yield from object_faults(tree, "structuredQuery", readers)


def query_faults(tree, front):
    def parent(inner):
        if inner != front[:-1]:
            yield from name_faults(inner, "parent", front)
    yield from object_faults(tree, "query", {"parent": parent, "structuredQuery": structured_faults}, ("parent", "structuredQuery"))


def documents_faults(tree, front):
    def names(items):
        if isinstance(items, list) and len(items) != 1:
            yield (SHAPE, "documents")
        else:
            yield from list_faults(items, "documents", lambda item, name: name_faults(item, name, front))
    yield from object_faults(tree, "documents", {"documents": names}, ("documents",))


def target_faults(tree, front):
    """The faults of a target; names stand behind this front."""
    if not isinstance(tree, dict) or sum(tree.get(kind) is not None for kind in ("documents", "query")) != 1:
        yield (SHAPE, "target")
        return
    yield from in_order(tree, {"documents": lambda inner: documents_faults(inner, front), "query": lambda inner: query_faults(inner, front)}, (), bad_member)


# ---- the order of values ----------------------------------------------------------------------------------------------

PLACES = {
    "nullValue": lambda inner: 0, "booleanValue": lambda inner: inner, "integerValue": int, "timestampValue": moment, "pending": moment,
    "stringValue": str.encode, "bytesValue": base64.b64decode, "referenceValue": lambda name: list(map(str.encode, name.split("/"))),
    "arrayValue": lambda items: list(map(place_of, items)),
    "mapValue": lambda fields: sorted((name.encode(), place_of(value)) for name, value in fields.items())}
KINDS = list(PLACES)


def place_of(value):
    """Something to compare, in the order of values: the kind's place among the kinds, and within it the value's own."""
    kind, inner = next(iter(value.items()))
    return KINDS.index(kind), PLACES[kind](inner)


def are_equal(a, b):
    return place_of(a) == place_of(b)


# ---- filters ------------------------------------------------------------------------------------------------------------

def read_path(tree):
    return tuple(path_names(tree["fieldPath"]))


def read_filter(tree):
    (kind, inner), = given(tree)
    if kind == "compositeFilter":
        return {"op": inner["op"], "filters": list(map(read_filter, inner.get("filters") or []))}
    found = {"field": read_path(inner["field"]), "op": inner["op"]}
    return {**found, "value": stored_value(inner["value"])} if kind == "fieldFilter" else found


def is_null(value):
    return "nullValue" in value


def is_among(value, values):
    return any(are_equal(value, each) for each in values)


def has_one_of(value, values):
    """Whether the value is an array with an element that equals one of the values."""
    return any(is_among(element, values) for element in value.get("arrayValue", []))


def is_ordered(value, operand, accepts):
    """Whether a value is of the operand's kind, and its place there and the operand's are accepted."""
    (kind, mine), (other, its) = place_of(value), place_of(operand)
    return kind == other and accepts(mine, its)


HOLDS = {
    "EQUAL": are_equal, "NOT_EQUAL": lambda value, operand: not is_null(value) and not are_equal(value, operand),
    "LESS_THAN": lambda value, operand: is_ordered(value, operand, operator.lt),
    "LESS_THAN_OR_EQUAL": lambda value, operand: is_ordered(value, operand, operator.le),
    "GREATER_THAN": lambda value, operand: is_ordered(value, operand, operator.gt),
    "GREATER_THAN_OR_EQUAL": lambda value, operand: is_ordered(value, operand, operator.ge),
    "IN": lambda value, operand: is_among(value, operand["arrayValue"]),
    "NOT_IN": lambda value, operand: not is_null(value) and not is_among(value, operand["arrayValue"]) and not any(map(is_null, operand["arrayValue"])),
    "ARRAY_CONTAINS": lambda value, operand: has_one_of(value, [operand]),
    "ARRAY_CONTAINS_ANY": lambda value, operand: has_one_of(value, operand["arrayValue"]),
    "IS_NULL": lambda value, _: is_null(value), "IS_NOT_NULL": lambda value, _: not is_null(value)}


def meets(found, at):
    """Whether a filter holds of a document, by what stands at its paths."""
    if "filters" in found:
        return (all if found["op"] == "AND" else any)(meets(each, at) for each in found["filters"])
    value = at(found["field"])
    return value is not None and HOLDS[found["op"]](value, found.get("value"))


# ---- targets ------------------------------------------------------------------------------------------------------------

def read_order(tree):
    return read_path(tree["field"]), tree.get("direction") == "DESCENDING"


def whole_orders(explicit, found):
    """The explicit orders, then those that the filters add, and the document's own name."""
    named = [path for path, _ in explicit]
    added = {each["field"] for each in found if each["op"] in ORDERING} - {OWN_NAME} - set(named)
    down = explicit[-1][1] if explicit else False
    paths = sorted(added, key=lambda path: [name.encode() for name in path])
    return explicit + [(path, down) for path in paths + [OWN_NAME] * (OWN_NAME not in named)]


def read_cursor(tree):
    if tree is None:
        return None
    values = stored_values(tree)
    return {"values": values, "row": list(map(place_of, values)), "before": bool(tree.get("before"))}


def printed_names(path):
    """The text of a path, with backticks where it must have them."""
    return ".".join(name if PLAIN_NAME.fullmatch(name) else "`%s`" % name.replace("\\", "\\\\").replace("`", "\\`") for name in path)


def printed_field(path):
    return {"fieldPath": printed_names(path)}


def printed_filter(found):
    if "filters" in found:
        return {"compositeFilter": {"filters": list(map(printed_filter, found["filters"])), "op": found["op"]}}
    printed = {"field": printed_field(found["field"]), "op": found["op"]}
    return {"fieldFilter": {**printed, "value": printed_value(found["value"])}} if "value" in found else {"unaryFilter": printed}


def printed_cursor(cursor):
    return {"values": list(map(printed_value, cursor["values"])), **({"before": True} if cursor["before"] else {})}


def spelled_path(path):
    return printed_path([name.encode() for name in path])


def spelled_filter(found):
    if "filters" in found:
        return {"op": found["op"], "filters": list(map(spelled_filter, found["filters"]))}
    spelled = {"field": spelled_path(found["field"]), "op": found["op"]}
    return {**spelled, "value": printed_value(found["value"])} if "value" in found else spelled


def spelled_cursor(cursor):
    return cursor and {"values": list(map(printed_value, cursor["values"])), "before": cursor["before"]}


class OneDocument:
    """The target of one document."""

    def __init__(self, name, front):
        self.name, self.front = name, front

    def broken_rule(self):
        return None

    def spelled(self):
        """The target as it is read from a commit."""
        return {"document": self.name[len(self.front):]}

    def printed(self):
        """The target as a request has it."""
        return {"documents": {"documents": [self.name]}}

    def answer(self, documents):
        return [self.name] if documents.get(self.name) is not None else []


class Query:
    """A query of a collection, with its whole list of orders."""

    def __init__(self, parent, tree, front):
        self.front = front
        self.collections = ["%s/%s" % (parent, selector.get("collectionId") or "") for selector in tree.get("from") or []]
        self.where = None if tree.get("where") is None else read_filter(tree["where"])
        self.filters = filters_in(self.where) if self.where else []
        self.orders = whole_orders(list(map(read_order, tree.get("orderBy") or [])), self.filters)
        self.start_at, self.end_at = read_cursor(tree.get("startAt")), read_cursor(tree.get("endAt"))
        self.limit = None if tree.get("limit") is None else read_whole(tree["limit"])

    def broken_rule(self):
        """The least number of a rule that the query breaks, or None."""
        operators = [each["op"] for each in self.filters]
        unequal = operators.count("NOT_EQUAL") + operators.count("NOT_IN")
        beside = "NOT_IN" in operators and {"OR", "IN", "ARRAY_CONTAINS_ANY"} & set(operators)
        empty = any(each.get("filters") == [] for each in self.filters)
        counts = [(len(each["value"]["arrayValue"]), OF_LISTS[each["op"]]) for each in self.filters if each["op"] in OF_LISTS]
        cursors = [len(cursor["values"]) for cursor in (self.start_at, self.end_at) if cursor]
        rules = [
            len(self.collections) != 1, unequal > 1 or beside, empty or any(not 1 <= count <= most for count, most in counts),
            any(not 1 <= count <= len(self.orders) for count in cursors), self.limit is not None and self.limit < 1,
            any(each["op"] == "AND" and sum(member["op"] in IN_ARRAYS for member in each["filters"]) > 1 for each in self.filters)]
        return next((number for number, broken in enumerate(rules, 1) if broken), None)

    def spelled(self):
        """The target as it is read from a commit."""
        return {"from": self.collections[0][len(self.front):], "where": self.where and spelled_filter(self.where),
                "orderBy": [{"field": spelled_path(path), "direction": DIRECTIONS[down]} for path, down in self.orders],
                "startAt": spelled_cursor(self.start_at), "endAt": spelled_cursor(self.end_at), "limit": self.limit}

    def printed(self):
        """The target as a request has it, with the whole list of orders."""
        parent, _, collection = self.collections[0].rpartition("/")
        query = {"from": [{"collectionId": collection}],
                 "orderBy": [{"direction": DIRECTIONS[down], "field": printed_field(path)} for path, down in self.orders]}
        parts = {"where": self.where and printed_filter(self.where), "startAt": self.start_at and printed_cursor(self.start_at),
                 "endAt": self.end_at and printed_cursor(self.end_at), "limit": self.limit}
        return {"query": {"parent": parent, "structuredQuery": {**query, **{name: inner for name, inner in parts.items() if inner is not None}}}}

    def compared(self, row, other):
        """How two rows of places stand in the orders: below 0, 0 or above 0. A shorter one is compared as far as it goes."""
        for (_, down), mine, its in zip(self.orders, row, other):
            if mine != its:
                return -1 if (mine < its) != down else 1
        return 0

    def is_within(self, row):
        """Whether a row stands within the cursors."""
        start, end = self.start_at, self.end_at
        behind = start is None or self.compared(row, start["row"]) >= (0 if start["before"] else 1)
        return behind and (end is None or self.compared(row, end["row"]) <= (-1 if end["before"] else 0))

    def row_of(self, name, fields):
        """The places of a matching document's values in the orders; None of one that doesn't match."""
        collection = self.collections[0] + "/"
        if fields is None or not name.startswith(collection) or "/" in name[len(collection):]:
            return None

        def at(path):
            return {"referenceValue": name} if path == OWN_NAME else at_path(fields, path)
        values = [at(path) for path, _ in self.orders]
        if None in values or self.where is not None and not meets(self.where, at):
            return None
        row = list(map(place_of, values))
        return row if self.is_within(row) else None

    def answer(self, documents):
        """The names of the answer in order. A document that matches is in it where fewer than the limit come before it."""
        rows = {name: self.row_of(name, fields) for name, fields in documents.items()}
        matching = {name: row for name, row in rows.items() if row is not None}
        places = {name: sum(self.compared(other, row) < 0 for other in matching.values()) for name, row in matching.items()}
        return sorted((name for name in places if self.limit is None or places[name] < self.limit), key=places.get)


def read_target(tree, front):
    """The target of a tree without faults."""
    if tree.get("documents") is not None:
        return OneDocument(tree["documents"]["documents"][0], front)
    return Query(tree["query"]["parent"], tree["query"]["structuredQuery"], front)


# ---- snapshots ----------------------------------------------------------------------------------------------------------

def changes_between(old, new):
    """The changes that lead from printed documents to others: what went, what came, and what is printed otherwise."""
    before, after = ({document["name"]: document for document in documents} for documents in (old, new))
    kinds = [("REMOVED", [name for name in before if name not in after]), ("ADDED", [name for name in after if name not in before]),
             ("MODIFIED", [name for name in after if name in before and before[name] != after[name]])]
    return [{"kind": kind, "name": name} for kind, names in kinds for name in names]
