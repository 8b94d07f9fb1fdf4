"""Targets at random: documents and queries with filters, orders, cursors and limits. Left out is null as an operand, which the backend and
the program take otherwise by their rules."""
from trials.streams.random_writes import COMMON, SCALARS

COLLECTIONS = [("", "rooms")] * 4 + [("/rooms/a", "chairs")]
FIELD_PATHS = ["a", "a", "b", "c", "`a b`", "m", "m.a", "n", "__name__"]
OPERATORS = ["EQUAL", "EQUAL", "NOT_EQUAL", "LESS_THAN", "LESS_THAN_OR_EQUAL", "GREATER_THAN", "GREATER_THAN_OR_EQUAL", "IN", "NOT_IN", "ARRAY_CONTAINS",
             "ARRAY_CONTAINS_ANY"]
OF_LISTS = ("IN", "NOT_IN", "ARRAY_CONTAINS_ANY")
OPERANDS = 2 * COMMON + SCALARS[1:]


def reference(chance, root, paths):
    return {"referenceValue": "%s/%s" % (root, chance.choice(paths))}


def random_operand(chance, path, root, paths):
    """A value to compare with what stands at the path: of `__name__` one of the documents."""
    if path == "__name__":
        return reference(chance, root, paths)
    kind = chance.random()
    if kind < 0.1:
        return {"arrayValue": {"values": [chance.choice(OPERANDS) for _ in range(chance.randrange(3))]}}
    if kind < 0.2:
        return {"mapValue": {"fields": {name: chance.choice(OPERANDS) for name in chance.sample(["a", "b"], chance.randrange(3))}}}
    return chance.choice(OPERANDS)


def random_field_filter(chance, root, paths):
    path, op = chance.choice(FIELD_PATHS), chance.choice(OPERATORS)
    value = random_operand(chance, path, root, paths)
    if op in OF_LISTS:
        value = {"arrayValue": {"values": [value] + [random_operand(chance, path, root, paths) for _ in range(chance.randrange(3))]}}
    return {"fieldFilter": {"field": {"fieldPath": path}, "op": op, "value": value}}


def random_filter(chance, root, paths, depth):
    kind = chance.random()
    if depth and kind < 0.35:
        filters = [random_filter(chance, root, paths, depth - 1) for _ in range(chance.choice([1, 2, 2, 3]))]
        return {"compositeFilter": {"op": chance.choice(["AND", "OR"]), "filters": filters}}
    if kind < 0.5:
        return {"unaryFilter": {"field": {"fieldPath": chance.choice(FIELD_PATHS[:-1])}, "op": chance.choice(["IS_NULL", "IS_NOT_NULL"])}}
    return random_field_filter(chance, root, paths)


def random_orders(chance):
    """Orders of different fields; none stands behind the document's own name."""
    fields = chance.sample(["a", "b", "c", "m.a"], chance.choice([0, 1, 1, 2])) + ["__name__"] * (chance.random() < 0.3)
    return [{"field": {"fieldPath": path}, "direction": chance.choice(["ASCENDING", "DESCENDING"])} for path in fields]


def random_cursor(chance, orders, root, paths):
    named = [order["field"]["fieldPath"] for order in orders[:chance.randint(1, len(orders))]]
    return {"values": [random_operand(chance, path, root, paths) for path in named], "before": chance.random() < 0.5}


def random_query(chance, root, documents):
    """A query of one of the collections, of which some documents have these paths."""
    parent, collection = chance.choice(COLLECTIONS)
    front = "%s/%s" % (parent.lstrip("/"), collection) if parent else collection
    paths = [path for path in documents if path.rpartition("/")[0] == front]
    query = {"from": [{"collectionId": collection}]}
    if chance.random() < 0.5:
        query["where"] = random_filter(chance, root, paths, 2)
    orders = random_orders(chance)
    if orders:
        query["orderBy"] = orders
        for name in ("startAt", "endAt"):
            if chance.random() < 0.15:
                query[name] = random_cursor(chance, orders, root, paths)
    if chance.random() < 0.3:
        query["limit"] = chance.randint(1, 4)
    return {"query": {"parent": root + parent, "structuredQuery": query}}


def random_target(chance, root, documents):
    """A target below the root; some documents have these paths, and of `secrets` the backend refuses each."""
    kind = chance.random()
    if kind < 0.03:
        return {"documents": {"documents": [root + "/secrets/a"]}}
    if kind < 0.3:
        return {"documents": {"documents": ["%s/%s" % (root, chance.choice(documents))]}}
    return random_query(chance, root, documents)
