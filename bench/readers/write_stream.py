"""The stream of writes as another reader has it, by the description in docs/FORMATS.md alone: the faults of the lines that open and
close it and of the messages that come on it, what is sent on it, and what is outstanding.

A token is as it is printed; the empty text stands for none.
"""
from readers.effects import given, path_names, printed_fields, printed_value, read_bytes, read_time, read_whole, stored_fields, stored_values
from readers.faults import ARITHMETIC, DEEP, DEEPEST_VALUE, NAME, OF_ARRAYS, SHAPE, in_order, kinds_of, object_faults, read_over, value_faults
from readers.queries import printed_names, whole_faults
from readers.store import is_result, name_of, transforms_of

STREAMS = ("watch", "write")
GREATEST_CODE = 16
REJECTING = (3, 5, 6, 7, 9, 11, 12, 15)
MOST_OUTSTANDING = 10


# ---- the faults of lines and messages -------------------------------------------------------------------------------

def stream_faults(tree):
    if tree not in STREAMS:
        yield (SHAPE, "stream")


def status_faults(tree, name):
    if not isinstance(tree, dict):
        yield (SHAPE, name)
        return

    def message(text):
        if not isinstance(text, str):
            yield (SHAPE, "message")
    yield from in_order(tree, {"code": lambda code: whole_faults(code, "code", 0, GREATEST_CODE), "message": message}, (), read_over)


def open_faults(tree):
    yield from object_faults(tree, "open", {"stream": stream_faults}, ("stream",))


def close_faults(tree):
    yield from object_faults(tree, "close", {"status": lambda status: status_faults(status, "status"), "stream": stream_faults}, ("stream",))


def time_faults(tree, name):
    if not isinstance(tree, str) or read_time(tree) is None:
        yield (SHAPE, name)


def token_faults(tree, name):
    if not isinstance(tree, str) or read_bytes(tree) is None:
        yield (SHAPE, name)


def result_faults(tree):
    def values(items):
        if not isinstance(items, list):
            yield (SHAPE, "transformResults")
            return
        for item in items:
            yield from value_faults(item, "transformResults", DEEPEST_VALUE, read_over)
    if not isinstance(tree, dict):
        yield (SHAPE, "writeResults")
        return
    yield from in_order(tree, {"transformResults": values, "updateTime": lambda time: time_faults(time, "updateTime")}, (), read_over)


def message_faults(tree):
    """The faults of what came on the stream."""
    def results(items):
        if not isinstance(items, list):
            yield (SHAPE, "writeResults")
            return
        for item in items:
            yield from result_faults(item)
    if not isinstance(tree, dict):
        yield (SHAPE, "written")
        return
    readers = {"commitTime": lambda time: time_faults(time, "commitTime"), "streamToken": lambda token: token_faults(token, "streamToken"), "writeResults": results}
    yield from in_order(tree, readers, (), read_over)


def member_of(fault):
    """The member by which a message is refused for a fault in it."""
    return {DEEP: "value", NAME: "name"}.get(fault[0]) or fault[1]


# ---- what a message says ----------------------------------------------------------------------------------------------

def known_value(tree):
    """The value without the members that are read over."""
    kind, = kinds_of(tree)
    inner = tree[kind]
    if kind == "arrayValue":
        inner = {"values": list(map(known_value, inner.get("values") or []))}
    elif kind == "mapValue":
        inner = {"fields": {name: known_value(value) for name, value in given(inner.get("fields") or {})}}
    return {kind: inner}


def read_result(tree):
    """The result of a write, as it stands in a commit."""
    time = tree.get("updateTime")
    return {"updateTime": None if time is None else read_time(time), "transformResults": list(map(known_value, tree.get("transformResults") or []))}


class Message:
    """A message without faults."""

    def __init__(self, tree):
        self.token = read_bytes(tree.get("streamToken") or "")
        self.results = list(map(read_result, tree.get("writeResults") or []))
        self.commit = None if tree.get("commitTime") is None else read_time(tree["commitTime"])

    def misfit(self, writes):
        """The member by which it is no answer to these writes, which are None where nothing is outstanding; None where it is one."""
        if writes is None or len(self.results) != len(writes):
            return "writeResults"
        if self.commit is None:
            return "commitTime"
        return None if all(map(is_result, writes, self.results)) else "transformResults"


# ---- what is sent -------------------------------------------------------------------------------------------------------

def printed_path(text):
    """A path with backticks where it must have them."""
    return printed_names(path_names(text))


def printed_transform(transform):
    path = {"fieldPath": printed_path(transform["fieldPath"])}
    for name in ARITHMETIC:
        if transform.get(name) is not None:
            return {**path, name: {"integerValue": str(read_whole(transform[name]["integerValue"]))}}
    for name in OF_ARRAYS:
        if transform.get(name) is not None:
            values = list(map(printed_value, stored_values(transform[name])))
            return {**path, name: {"values": values} if values else {}}
    return {**path, "setToServerValue": "REQUEST_TIME"}


def printed_condition(write):
    """The write's precondition, as a member of it, or no member."""
    condition = write.get("currentDocument")
    if condition is None:
        return {}
    if condition.get("exists") is not None:
        return {"currentDocument": {"exists": condition["exists"]}}
    return {"currentDocument": {"updateTime": read_time(condition["updateTime"])}}


def printed_write(write):
    if write.get("delete") is not None:
        return {"delete": write["delete"], **printed_condition(write)}
    fields = printed_fields(stored_fields(write["update"].get("fields") or {}))
    printed = {"update": {"name": name_of(write), **({"fields": fields} if fields else {})}, **printed_condition(write)}
    if write.get("updateMask") is not None:
        paths = list(map(printed_path, write["updateMask"].get("fieldPaths") or []))
        printed["updateMask"] = {"fieldPaths": paths} if paths else {}
    transforms = list(map(printed_transform, transforms_of(write)))
    return {**printed, "updateTransforms": transforms} if transforms else printed


class WriteStream:
    """Whether it is open, whether its handshake came, how many batches are outstanding, and the token."""

    def __init__(self):
        self.is_open = False
        self.close()

    def open(self):
        self.is_open = True

    def close(self):
        self.is_open, self.is_ready, self.outstanding, self.token = False, False, 0, ""

    def take_token(self, token):
        self.token = token or self.token

    def rejects(self, code):
        """Whether a close with that code rejects the first outstanding batch."""
        return self.outstanding > 0 and code in REJECTING

    def requests(self, pending):
        """The batches that are sent now, of those that are pending."""
        while self.is_ready and self.outstanding < min(MOST_OUTSTANDING, len(pending)):
            request = {"writes": list(map(printed_write, pending[self.outstanding][2]))}
            self.outstanding += 1
            yield {"send": {"write": {"streamToken": self.token, **request} if self.token else request}}
