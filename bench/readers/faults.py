"""The faults of what writes are made of, by the description in docs/FORMATS.md alone: names, values, paths and the parts of a write.

A walk yields the faults of a tree in their order: (number, member), (NAME, fault, text), or (DEEP,). Members come in the order of the
bytes of their names, a required one that is missing at its own name's place, lists in order.
"""
from readers.effects import given, path_names, read_bytes, read_time, read_whole

DEEPEST_VALUE = 20
MOST_NAMES = 21
SHAPE, DEEP, UNSUPPORTED, NAME = 1, 4, 3, 2
ORDER = [SHAPE, DEEP, UNSUPPORTED, NAME]

ARITHMETIC = ("increment", "maximum", "minimum")
OF_ARRAYS = ("appendMissingElements", "removeAllFromArray")


# ---- names --------------------------------------------------------------------------------------------------------

def is_reserved(text):
    return len(text.encode()) >= 4 and text.startswith("__") and text.endswith("__")


def is_segment(text):
    return 1 <= len(text.encode()) <= 1500 and text not in (".", "..") and "/" not in text and not is_reserved(text)


def path_fault(text, front):
    """The fault of a text as the name of a document under a front, or None."""
    if not text.startswith(front):
        return "WrongRoot"
    parts = text[len(front):].split("/")
    if not all(map(is_segment, parts)):
        return "BadSegment"
    return "OddLength" if len(parts) % 2 else None


def name_faults(tree, name, front):
    """The faults of what is to be the name of a document under a front."""
    if not isinstance(tree, str):
        yield (SHAPE, name)
    elif path_fault(tree, front):
        yield (NAME, path_fault(tree, front), tree)


def reference_fault(text):
    parts = text.split("/")
    if len(parts) < 6 or (parts[0], parts[2], parts[4]) != ("projects", "databases", "documents") \
            or not is_segment(parts[1]) or not is_segment(parts[3]):
        return "WrongRoot"
    return path_fault(text, "/".join(parts[:5]) + "/")


def field_name_fault(name):
    if not 1 <= len(name.encode()) <= 1500:
        return "BadPath"
    return "ReservedField" if is_reserved(name) else None


def path_faults(name, tree):
    """The faults of what is to be the path of a field in a write, under that name."""
    names = path_names(tree) if isinstance(tree, str) else None
    if not isinstance(tree, str):
        yield (SHAPE, name)
    elif names is None:
        yield (NAME, "BadPath", tree)
    elif len(names) > MOST_NAMES:
        yield (DEEP,)
    elif any(field_name_fault(name) == "BadPath" for name in names):
        yield (NAME, "BadPath", tree)
    elif any(map(is_reserved, names)):
        yield (NAME, "ReservedField", tree)


# ---- objects, values and the parts of a write ----------------------------------------------------------------------

def in_order(members, readers, required, unknown):
    """The faults of an object's members: those of known ones by their readers, a required one at its own place."""
    there = dict(given(members))
    for name in sorted(set(there) | set(required), key=str.encode):
        if name not in there:
            yield (SHAPE, name)
        elif name in readers:
            yield from readers[name](there[name])
        else:
            yield from unknown(name)


def bad_member(name):
    """The fault of a member that isn't known, in a line of the app."""
    yield (SHAPE, name)


def read_over(name):
    """A member that isn't known is no fault in a message of the backend."""
    return iter(())


def scalar_faults(name, tree):
    if name == "nullValue":
        right = tree is None or tree == "NULL_VALUE"
    elif name == "booleanValue":
        right = isinstance(tree, bool)
    elif name == "integerValue":
        right = read_whole(tree) is not None
    elif not isinstance(tree, str):
        right = False
    elif name == "timestampValue":
        right = read_time(tree) is not None
    elif name == "bytesValue":
        right = read_bytes(tree) is not None
    else:
        right = True
        if name == "referenceValue" and reference_fault(tree):
            yield (NAME, reference_fault(tree), tree)
    if not right:
        yield (SHAPE, name)


def array_faults(tree, limit, unknown):
    if not isinstance(tree, dict):
        yield (SHAPE, "arrayValue")
        return
    if limit == 0:
        yield (DEEP,)

    def values(items):
        if not isinstance(items, list):
            yield (SHAPE, "values")
            return
        for item in items:
            yield from value_faults(item, "values", max(limit - 1, 0), unknown)
    yield from in_order(tree, {"values": values}, (), unknown)


def map_faults(tree, limit, unknown):
    if not isinstance(tree, dict):
        yield (SHAPE, "mapValue")
        return
    inner = tree.get("fields")
    if isinstance(inner, dict) and inner.get("__type__") is not None:
        yield (UNSUPPORTED, "vectorValue")
        return
    if limit == 0:
        yield (DEEP,)
    yield from in_order(tree, {"fields": lambda fields: fields_faults(fields, max(limit - 1, 0), unknown)}, (), unknown)


SCALARS = ("nullValue", "booleanValue", "integerValue", "timestampValue", "stringValue", "bytesValue", "referenceValue")
NEVER = ("doubleValue", "geoPointValue")


def kinds_of(tree):
    """The kinds that an object names as a value, those that aren't supported included."""
    return [kind for kind in tree if kind in SCALARS + NEVER + ("arrayValue", "mapValue") and (kind == "nullValue" or tree[kind] is not None)]


def value_faults(tree, name, limit, unknown=bad_member):
    if not isinstance(tree, dict):
        yield (SHAPE, name)
        return
    if len(kinds_of(tree)) != 1:
        yield (SHAPE, name)
        return
    for member in sorted(tree, key=str.encode):
        inner = tree[member]
        if member in NEVER and inner is not None:
            yield (UNSUPPORTED, member)
        elif member == "arrayValue" and inner is not None:
            yield from array_faults(inner, limit, unknown)
        elif member == "mapValue" and inner is not None:
            yield from map_faults(inner, limit, unknown)
        elif member == "nullValue" or member in SCALARS and inner is not None:
            yield from scalar_faults(member, inner)
        elif inner is not None:
            yield from unknown(member)


def values_faults(tree, limit):
    if not isinstance(tree, list):
        yield (SHAPE, "values")
        return
    for item in tree:
        yield from value_faults(item, "values", limit)


def object_faults(tree, name, readers, required=()):
    if not isinstance(tree, dict):
        yield (SHAPE, name)
        return
    yield from in_order(tree, readers, required, bad_member)


def mask_faults(tree):
    def paths(items):
        if not isinstance(items, list):
            yield (SHAPE, "fieldPaths")
            return
        for item in items:
            yield from path_faults("fieldPaths", item)
    yield from object_faults(tree, "updateMask", {"fieldPaths": paths})


def condition_faults(tree):
    if isinstance(tree, dict) and sum(tree.get(name) is not None for name in ("exists", "updateTime")) != 1:
        yield (SHAPE, "currentDocument")
        return

    def exists(inner):
        if not isinstance(inner, bool):
            yield (SHAPE, "exists")

    def update_time(inner):
        if not isinstance(inner, str) or read_time(inner) is None:
            yield (SHAPE, "updateTime")
    yield from object_faults(tree, "currentDocument", {"exists": exists, "updateTime": update_time})


def operand_faults(name, tree):
    """A value that is a whole number. One of another kind, or of two, is a fault under the transform's own name."""
    if isinstance(tree, dict):
        kinds = [kind for kind in tree if kind in SCALARS + NEVER + ("arrayValue", "mapValue") and tree[kind] is not None]
        if kinds not in (["integerValue"], ["doubleValue"]):
            yield (SHAPE, name)
            return

    def unsupported(inner):
        yield (UNSUPPORTED, "doubleValue")
    yield from object_faults(tree, name, {"integerValue": lambda inner: scalar_faults("integerValue", inner), "doubleValue": unsupported})


def transform_faults(tree):
    chosen = [name for name in ARITHMETIC + OF_ARRAYS + ("setToServerValue",) if isinstance(tree, dict) and tree.get(name) is not None]
    if len(chosen) != 1:
        yield (SHAPE, "updateTransforms")
        return
    path = tree.get("fieldPath")
    names = path_names(path) if isinstance(path, str) else None
    limit = DEEPEST_VALUE
    if chosen[0] in OF_ARRAYS and names is not None:
        limit -= len(names)
        if limit < 0:
            yield (DEEP,)

    def server_time(inner):
        if inner != "REQUEST_TIME":
            yield (SHAPE, "setToServerValue")
    readers = {"fieldPath": lambda inner: path_faults("fieldPath", inner), "setToServerValue": server_time}
    for name in ARITHMETIC:
        readers[name] = lambda inner, name=name: operand_faults(name, inner)
    for name in OF_ARRAYS:
        readers[name] = lambda inner, name=name: object_faults(inner, name, {"values": lambda items: values_faults(items, max(limit, 0))})
    yield from in_order(tree, readers, ("fieldPath",), bad_member)


def transforms_faults(tree):
    if not isinstance(tree, list):
        yield (SHAPE, "updateTransforms")
        return
    for item in tree:
        yield from transform_faults(item)


def fields_faults(tree, limit, unknown=bad_member):
    if not isinstance(tree, dict):
        yield (SHAPE, "fields")
        return
    for name, inner in given(tree):
        if field_name_fault(name):
            yield (NAME, field_name_fault(name), name)
        yield from value_faults(inner, name, limit, unknown)
