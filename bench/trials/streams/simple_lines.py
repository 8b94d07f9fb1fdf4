"""Writes and targets at random, of few documents in few collections, so that they meet often."""
from readers.queries import read_target

COLLECTIONS = ["rooms", "users", "rooms/d1/chairs"]
REFUSED = "secrets"  # the collection that a backend refuses
DOCUMENTS = 12  # of a collection
TEXTS = ["", "a", "b", "r\u00f6d"]
TARGETS = 40
FILTERS = [("n", "EQUAL"), ("n", "LESS_THAN"), ("n", "GREATER_THAN_OR_EQUAL"), ("n", "NOT_EQUAL"), ("s", "EQUAL"), ("s", "IN"),
           ("tags", "ARRAY_CONTAINS"), ("m.x", "GREATER_THAN")]


class SimpleLines:
    """Random writes, and targets of which some come again. Names stand behind the front."""

    def __init__(self, chance, front):
        self.chance, self.front = chance, front
        self.targets = [self.target() for _ in range(TARGETS)] + [{"documents": {"documents": ["%s%s/a" % (front, REFUSED)]}}]

    def name(self):
        return "%s%s/d%d" % (self.front, self.chance.choice(COLLECTIONS), self.chance.randrange(DOCUMENTS))

    def value_of(self, field):
        if field == "n":
            return {"integerValue": str(self.chance.randrange(10))}
        if field == "tags":
            return {"arrayValue": {"values": [{"stringValue": text} for text in self.chance.sample(TEXTS, self.chance.randrange(3))]}}
        if field == "s":
            return {"stringValue": self.chance.choice(TEXTS)}
        return {"mapValue": {"fields": {"x": self.value_of("n"), "y": self.value_of("s")}}}

    def fields(self):
        return {field: self.value_of(field) for field in ("n", "s", "tags", "m") if self.chance.random() < 0.8}

    def merge(self, name):
        field = self.chance.choice(["n", "s", "tags", "m.x"])
        fields = {"m": {"mapValue": {"fields": {"x": self.value_of("n")}}}} if field == "m.x" else {field: self.value_of(field)}
        return {"update": {"name": name, "fields": fields}, "updateMask": {"fieldPaths": [field]}}

    def transform(self, name):
        transforms = [{"fieldPath": "n", "increment": {"integerValue": str(self.chance.randint(-2, 3))}},
                      {"fieldPath": "at", "setToServerValue": "REQUEST_TIME"}, {"fieldPath": "m.x", "maximum": {"integerValue": "5"}},
                      {"fieldPath": "tags", "appendMissingElements": {"values": [{"stringValue": self.chance.choice(TEXTS)}]}}]
        return {"update": {"name": name}, "updateMask": {}, "updateTransforms": self.chance.sample(transforms, self.chance.randint(1, 2))}

    def write(self, has_conditions):
        kind, name = self.chance.random(), self.name()
        if kind < 0.35:
            write = {"update": {"name": name, "fields": self.fields()}}
        elif kind < 0.6:
            write = self.merge(name)
        else:
            write = self.transform(name) if kind < 0.85 else {"delete": name}
        if has_conditions and self.chance.random() < 0.05:
            write["currentDocument"] = {"exists": self.chance.random() < 0.7}
        return write

    def write_line(self):
        writes = [self.write(True) for _ in range(self.chance.choice([1, 1, 1, 2, 3]))]
        return {"write": {"at": "2024-05-01T00:00:%02dZ" % self.chance.randrange(60), "writes": writes}}

    def filter(self):
        field, op = self.chance.choice(FILTERS)
        value = self.value_of("n" if field in ("n", "m.x") else "s")
        if op == "IN":
            value = {"arrayValue": {"values": [value, self.value_of("s")]}}
        return {"fieldFilter": {"field": {"fieldPath": field}, "op": op, "value": value}}

    def target(self):
        """A target that breaks no rule."""
        target = self.any_target()
        return self.target() if read_target(target, self.front).broken_rule() else target

    def any_target(self):
        if self.chance.random() < 0.2:
            return {"documents": {"documents": [self.name()]}}
        parent, _, collection = self.chance.choice(COLLECTIONS).rpartition("/")
        query, kind = {"from": [{"collectionId": collection}]}, self.chance.random()
        if kind < 0.3:
            query["where"] = self.filter()
        elif kind < 0.5:
            query["where"] = {"compositeFilter": {"op": self.chance.choice(["AND", "OR"]), "filters": [self.filter(), self.filter()]}}
        if self.chance.random() < 0.5:
            order = {"field": {"fieldPath": self.chance.choice(["n", "s", "m.x"])}, "direction": self.chance.choice(["ASCENDING", "DESCENDING"])}
            query["orderBy"] = [order]
        if self.chance.random() < 0.4:
            query["limit"] = self.chance.randint(1, 5)
        return {"query": {"parent": (self.front + parent).rstrip("/"), "structuredQuery": query}}
