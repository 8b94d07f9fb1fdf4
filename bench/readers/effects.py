"""What values are read as and printed as, and what writes make of documents, by the descriptions in docs/FORMATS.md alone.

What stands after a masked update is worked out by what stands at each path, and not by setting one path after another. Fields are
by name. A value is as it is printed, so that equal values are equal trees; but a map's tree is {"mapValue": fields},
an array's {"arrayValue": items}, and a time that isn't known yet is {"pending": time}. A write is its tree in a line.
"""
import base64
import datetime
import re

TIME = re.compile(r"([0-9]{4})-([0-9]{2})-([0-9]{2})T([0-9]{2}):([0-9]{2}):([0-9]{2})(?:\.([0-9]{1,9}))?Z")
WHOLE = re.compile(r"-?(?:0|[1-9][0-9]*)")


def given(members):
    """The members that aren't null, in the order of the bytes of their names."""
    return [(name, members[name]) for name in sorted(members, key=str.encode) if members[name] is not None]


# ---- scalars ------------------------------------------------------------------------------------------------------

def read_time(text):
    """The printed form of a time, or None."""
    found = TIME.fullmatch(text)
    if not found:
        return None
    year, month, day, hour, minute, second = map(int, found.groups()[:6])
    try:
        datetime.datetime(year, month, day, hour, minute, second)
    except ValueError:
        return None
    digits = (found.group(7) or "").rstrip("0")
    digits += "0" * (-len(digits) % 3)
    return text[:19] + ("." + digits if digits else "") + "Z"


def read_whole(tree):
    if isinstance(tree, str):
        tree = int(tree) if WHOLE.fullmatch(tree) else None
    if isinstance(tree, bool) or not isinstance(tree, int) or not -2**63 <= tree < 2**63:
        return None
    return tree


def read_bytes(text):
    """The printed form of base64, or None: one alphabet, whole padding or none, zero bits left over."""
    bare = text.rstrip("=")
    if not re.fullmatch(r"[A-Za-z0-9+/]*|[A-Za-z0-9_-]*", bare, re.ASCII) or text.endswith("\n"):
        return None
    whole = bare + "=" * (-len(bare) % 4)
    if len(bare) % 4 == 1 or text not in (bare, whole):
        return None
    standard = whole.replace("-", "+").replace("_", "/")
    printed = base64.b64encode(base64.b64decode(standard)).decode()
    return printed if printed == standard else None


# ---- paths --------------------------------------------------------------------------------------------------------

PLAIN_NAME = re.compile(r"[A-Za-z_][A-Za-z0-9_]*")


def path_names(text):
    """The names that the text of a field path has, or None: plain ones, or others between backticks, joined by points."""
    names, at = [], 0
    while True:
        if text[at:at + 1] == "`":
            name, at = "", at + 1
            while text[at:at + 1] != "`":
                if text[at:at + 1] == "\\":
                    at += 1
                    if text[at:at + 1] not in ("`", "\\"):
                        return None
                if at >= len(text):
                    return None
                name, at = name + text[at], at + 1
            at += 1
        else:
            found = PLAIN_NAME.match(text, at)
            if not found:
                return None
            name, at = found.group(), found.end()
        names.append(name)
        if at == len(text):
            return names
        if text[at] != ".":
            return None
        at += 1


# ---- documents ----------------------------------------------------------------------------------------------------

def stored_fields(tree):
    return {name: stored_value(inner) for name, inner in given(tree)}


def stored_value(tree):
    """The value of a tree without faults."""
    kind = "nullValue"
    for name, inner in given(tree):
        kind = name
    inner = tree[kind]
    if kind == "nullValue":
        return {kind: None}
    if kind == "integerValue":
        return {kind: str(read_whole(inner))}
    if kind == "timestampValue":
        return {kind: read_time(inner)}
    if kind == "bytesValue":
        return {kind: read_bytes(inner)}
    if kind == "arrayValue":
        return {kind: stored_values(inner)}
    if kind == "mapValue":
        return {kind: stored_fields(inner.get("fields") or {})}
    return {kind: inner}


def printed_fields(fields):
    return {name: printed_value(value) for name, value in fields.items()}


def printed_value(value):
    kind, inner = next(iter(value.items()))
    if kind == "pending":
        return {"nullValue": None}
    if kind == "arrayValue":
        return {kind: {"values": list(map(printed_value, inner))} if inner else {}}
    if kind == "mapValue":
        return {kind: {"fields": printed_fields(inner)} if inner else {}}
    return value


# ---- writes -------------------------------------------------------------------------------------------------------

def is_map(tree):
    return tree is not None and "mapValue" in tree


def at_path(fields, names):
    """What stands at the path, or None."""
    for name in names[:-1]:
        inner = fields.get(name)
        if not is_map(inner):
            return None
        fields = inner["mapValue"]
    return fields.get(names[-1])


def masked(old, given_fields, mask):
    """The fields after a masked update. `mask` has the masked paths from here on, each of at least one name."""
    after = dict(old)
    for name in {path[0] for path in mask}:
        inside = [path[1:] for path in mask if path[0] == name]
        if () in inside:
            value = given_fields.get(name)
            after.pop(name, None)
            if value is not None:
                after[name] = value
            continue
        was, new = old.get(name), given_fields.get(name)
        filled = is_map(new) and any(at_path(new["mapValue"], path) is not None for path in inside)
        if filled or is_map(was):
            after[name] = {"mapValue": masked(was["mapValue"] if is_map(was) else {}, new["mapValue"] if is_map(new) else {}, inside)}
    return after


def with_path(fields, names, value):
    """The fields with a value at the path, under maps."""
    if len(names) > 1:
        inner = fields.get(names[0])
        value = {"mapValue": with_path(inner["mapValue"] if is_map(inner) else {}, names[1:], value)}
    return {**fields, names[0]: value}


def number_in(tree):
    return int(tree["integerValue"]) if tree is not None and "integerValue" in tree else None


def transformed(found, transform, at):
    """What a transform sets, by what it found at its path."""
    if transform.get("setToServerValue") is not None:
        return {"pending": at}
    for name, choose in (("increment", lambda n, by: max(-2**63, min(2**63 - 1, n + by))), ("maximum", max), ("minimum", min)):
        if transform.get(name) is not None:
            operand, number = read_whole(transform[name]["integerValue"]), number_in(found)
            return {"integerValue": str(operand if number is None else choose(number, operand))}
    return array_after(found, transform)


def array_after(found, transform):
    """What a transform of an array sets."""
    items = list(found["arrayValue"]) if found is not None and "arrayValue" in found else []
    if transform.get("appendMissingElements") is not None:
        for value in stored_values(transform["appendMissingElements"]):
            if value not in items:
                items.append(value)
    else:
        removed = stored_values(transform["removeAllFromArray"])
        items = [item for item in items if item not in removed]
    return {"arrayValue": items}


def stored_values(elements):
    return [stored_value(value) for value in elements.get("values") or []]
