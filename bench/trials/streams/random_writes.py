"""Writes at random, of what the backend and the program take alike: no arrays in arrays, no nanoseconds, no paths of a mask in one another."""

COMMON = [{"integerValue": "0"}, {"integerValue": "1"}, {"booleanValue": True}, {"stringValue": "x"}]
SCALARS = [{"nullValue": None}, {"booleanValue": True}, {"integerValue": "0"}, {"integerValue": "-3"}, {"integerValue": "9223372036854775807"},
           {"stringValue": ""}, {"stringValue": "r\u00f6\u00f6m \U0001f600"}, {"timestampValue": "2024-02-29T23:59:59.120Z"}, {"bytesValue": "+w=="},
           {"referenceValue": "projects/p/databases/d/documents/a/b"}]
INTEGERS = ["0", "1", "-1", "5", "9223372036854775807", "-9223372036854775808"]
FIELD_NAMES = ["a", "b", "c", "a b", "m"]
MASK_PATHS = [["a"], ["b"], ["c"], ["`a b`"], ["m.a", "m.b"], ["m"], ["m.a.x"], ["c.a"]]
TRANSFORMED = ["a", "b", "m.a", "c.`x y`"]


def random_value(chance, depth, is_element=False):
    kind = chance.random() if depth else 1
    if kind < 0.2 and not is_element:
        return {"arrayValue": {"values": [random_value(chance, depth - 1, True) for _ in range(chance.randrange(4))]}}
    if kind < 0.4:
        return {"mapValue": {"fields": random_fields(chance, depth - 1)}}
    return chance.choice(COMMON if chance.random() < 0.6 else SCALARS)


def random_fields(chance, depth):
    return {name: random_value(chance, depth) for name in chance.sample(FIELD_NAMES, chance.randint(0, len(FIELD_NAMES)))}


def random_transform(chance):
    kind, elements = chance.randrange(6), {"values": [random_value(chance, 1, True) for _ in range(chance.randrange(3))]}
    name = ["setToServerValue", "increment", "maximum", "minimum", "appendMissingElements", "removeAllFromArray"][kind]
    operand = "REQUEST_TIME" if kind == 0 else {"integerValue": chance.choice(INTEGERS)} if kind < 4 else elements
    return {"fieldPath": chance.choice(TRANSFORMED), name: operand}


def random_condition(chance, known):
    """A precondition; `known` is the update time of the document, or None."""
    if known and chance.random() < 0.5:
        return {"updateTime": known if chance.random() < 0.7 else "2024-05-01T00:00:01Z"}
    return {"exists": chance.random() < (0.8 if known else 0.3)}


def random_write(chance, name, condition):
    rest = {"currentDocument": condition} if condition else {}
    if chance.random() < 0.15:
        return {"delete": name, **rest}
    write = {"update": {"name": name, "fields": random_fields(chance, 3)}, **rest}
    if chance.random() < 0.5:
        write["updateMask"] = {"fieldPaths": chance.choice(MASK_PATHS) + chance.choice([[], ["n"]])}
    if chance.random() < 0.5:
        write["updateTransforms"] = [random_transform(chance) for _ in range(chance.randint(1, 3))]
    return write


def random_batch(chance, names, condition_of):
    """The writes of a batch on some of the names; the first one on a name has the condition that `condition_of` gives for it, or none."""
    writes, taken = [], set()
    for _ in range(chance.choice([1, 1, 1, 2, 3])):
        name = chance.choice(names)
        writes.append(random_write(chance, name, None if name in taken else condition_of(name)))
        taken.add(name)
    return writes


def random_write_line(chance, writes):
    return {"write": {"at": "2024-05-01T00:00:%02dZ" % chance.randrange(60), "writes": writes}}
