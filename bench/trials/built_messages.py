"""Openings, closings and messages of both streams, built for what is outstanding or asked for by then, or with faults."""
import datetime
import json

from readers.effects import given
from readers.store import transforms_of
from trials.built_lines import OF_ARRAYS, RIGHT, WRONG, built_fields, built_name, built_value, chosen, nested_value, plain_fields, spoil

FIRST_TIME = "2024-05-01T00:00:00Z"
ENDS_OF_TIME = ["0001-01-01T00:00:00Z", "9999-12-31T23:59:59.999999999Z"]
WRONG_TIMES = ["2024-05-01", "2024-02-30T00:00:00Z", "2024-05-01T00:00:01+00:00", "", 5, {}, []]
TOKENS = ["", "AQ==", "Ag", "-w", "+w==", None]
WRONG_TOKENS = ["+x", "A", "-w+w", "+w=", 5, [], {}]
STREAMS = {"watch": ["watch"] * 40 + ["write"], "write": ["write"] * 40 + ["watch"]}
WRONG_STREAMS = ["", "writes", "WRITE", None, 5, [], {}]
CODES = list(range(17)) + ["10", "7", None]
WRONG_CODES = [17, -1, "17", "x", 1.0, True, [], "07"]
MESSAGES = ["", "no", "r\u00f6\u00f6m\u0001\U0001f600\"\\/", None]
WRONG_MESSAGES = [5, [], {}]


def read_over(chance, wrong, tree):
    """The object, with a member that no reader knows, or one fewer."""
    if chance.random() < 0.1:
        tree[chance.choice(["a", "details", "streamId", "x", "zz"])] = chance.choice([None, 1, [], {}, "x", {"doubleValue": 1}])
    if tree and chance.random() < wrong / 3:
        tree[chance.choice(sorted(tree))] = chance.choice([None, 1, "x", [], {}])
    return tree


def built_status(chance, wrong):
    status = {"code": chosen(chance, wrong, CODES, WRONG_CODES)}
    if chance.random() < 0.4:
        status["message"] = chosen(chance, wrong, MESSAGES, WRONG_MESSAGES)
    return read_over(chance, wrong, status)


def near(chance, time):
    """A time a few seconds before or behind this one, or an end of time."""
    if chance.random() < 0.005:
        return chance.choice(ENDS_OF_TIME)
    return later(time, chance.choice([-3, -2, -1, 0, 0, 1, 1, 2, 3]), chance.choice(["", "", "", ".5", ".250000001"]))


def later(time, seconds, fraction=""):
    """A time so many seconds behind this one; beside an end of time the first time."""
    if not 2000 < int((time or FIRST_TIME)[:4]) < 9000:
        time = FIRST_TIME
    moved = datetime.datetime.fromisoformat((time or FIRST_TIME)[:19]) + datetime.timedelta(seconds=seconds)
    return moved.isoformat() + fraction + "Z"


def built_time(chance, wrong, last):
    return chosen(chance, wrong, [near(chance, last)], WRONG_TIMES)


def built_open(chance, wrong, name):
    return {"open": spoil(chance, wrong / 3, {"stream": chosen(chance, wrong, STREAMS[name], WRONG_STREAMS)})}


def built_close(chance, wrong, name):
    line = {"stream": chosen(chance, wrong, STREAMS[name], WRONG_STREAMS)}
    if chance.random() < 0.8:
        line["status"] = built_status(chance, wrong)
    return {"close": spoil(chance, wrong / 3, line)}


def over_known(chance, value):
    """The value, sometimes with members that are read over, in it and in what it holds."""
    (kind, inner), = value.items()
    if kind == "arrayValue" and inner.get("values"):
        inner = {**inner, "values": [over_known(chance, each) for each in inner["values"]]}
    elif kind == "mapValue" and inner.get("fields"):
        inner = {**inner, "fields": {name: over_known(chance, each) for name, each in given(inner["fields"])}}
    if chance.random() < 0.9:
        return {kind: inner}
    if isinstance(inner, dict):
        inner = {**inner, "x": 1}
    return {kind: inner, chance.choice(["a", "x", "zz"]): chance.choice([1, None, {}])}


def built_returned(chance, wrong, transform, last):
    """What a transform returned."""
    if chance.random() < wrong:
        return chance.choice([dict([chance.choice(WRONG)]), built_value(chance, wrong, 2), nested_value(chance, {"integerValue": "1"}), None, 5, {}])
    if any(transform.get(name) is not None for name in OF_ARRAYS):
        value = chance.choice([{"nullValue": None}, {"nullValue": None}, {"arrayValue": {"values": [{"integerValue": 1}]}}, {"mapValue": {}}])
        return nested_value(chance, value) if chance.random() < 0.1 else over_known(chance, value)
    if chance.random() < 0.03:
        return chance.choice([{"arrayValue": {}}, {"mapValue": {}}, {"arrayValue": {"values": [{"integerValue": "1"}]}}])
    if transform.get("setToServerValue") is not None and chance.random() < 0.8:
        return {"timestampValue": near(chance, last)}
    return over_known(chance, dict([chance.choice(RIGHT + [("integerValue", "9"), ("integerValue", 12)])]))


def built_result(chance, wrong, write, last):
    values = [built_returned(chance, wrong, transform, last) for transform in transforms_of(write)]
    if chance.random() < 0.02:
        values = values[1:] if values and chance.random() < 0.5 else values + [{"integerValue": "1"}]
    result = {"transformResults": values} if values or chance.random() < 0.2 else {}
    if chance.random() < 0.7:
        result["updateTime"] = built_time(chance, wrong, last) if chance.random() < 0.9 else None
    return read_over(chance, wrong, result)


def built_results(chance, wrong, writes, last):
    results = [built_result(chance, wrong, write, last) for write in writes]
    if chance.random() < 0.03:
        results = results[1:] if chance.random() < 0.5 else results + [{}]
    if results and chance.random() < wrong / 3:
        results[chance.randrange(len(results))] = chance.choice([None, 5, [], "x"])
    return results


def built_written(chance, wrong, writes, last):
    """A message: an answer to these writes, which are none at a handshake."""
    message = {}
    if chance.random() < 0.8:
        message["streamToken"] = chosen(chance, wrong, TOKENS, WRONG_TOKENS)
    if writes or chance.random() < 0.05:
        message["writeResults"] = built_results(chance, wrong, writes, last)
    if chance.random() < (0.97 if writes else 0.2):
        message["commitTime"] = built_time(chance, wrong, last)
    if chance.random() < wrong / 5:
        return {"written": chance.choice([None, 5, [], "x", True])}
    return {"written": read_over(chance, wrong, message)}


def built_message(chance, stream, pending, last):
    """A line of the stream of writes, as it stands, with these pending batches and this last read time: mostly one that is due."""
    wrong, kind = chance.choice([0, 0, 0, 0, 0.02, 0.05, 0.3]), chance.random()
    if not stream.is_open and kind < 0.9:
        line = built_open(chance, wrong, "write")
    elif kind < (0.03 if stream.outstanding else 0.3):
        line = built_close(chance, wrong, "write")
    elif kind < 0.05 or stream.is_open and kind < 0.06:
        line = built_open(chance, wrong, "write")
    else:
        line = built_written(chance, wrong, pending[0][2] if stream.outstanding else [], last)
    return json.dumps(line, ensure_ascii=chance.random() < 0.5).encode()


# ---- the stream of listeners --------------------------------------------------------------------------------------------

OTHER_IDS = [0, 1, 2, 3, 4, "6", 8, 101, -2, "-1", 2147483647, -2147483648]
WRONG_NUMBERS = [2147483648, -2147483649, 1.0, "01", "-0", "x", True, None, [], "2147483648"]
WRONG_COUNTS = [-1, 2147483648, 1.5, "x", True, [], "-1"]
WRONG_CHANGES = ["", "TARGET_CHANGE_TYPE_UNSPECIFIED", "add", "FILTER", 1, 5, {}, []]


def built_ids(chance, wrong, ids):
    """Some of these ids, each as a number or a text, sometimes with others, or none."""
    picked = chance.sample(ids, min(len(ids), chance.choice([1, 1, 1, 1, 2, 3])))
    if not picked or chance.random() < 0.05:
        picked.append(chance.choice(OTHER_IDS))
    if chance.random() < 0.05:
        picked.append(picked[0])
    return [str(number) if chance.random() < 0.1 else number for number in picked] if chance.random() > wrong / 3 else \
        chance.choice([[*picked, chance.choice(WRONG_NUMBERS)], {}, "x", picked[0]])


def built_change(chance, wrong, ids, kind, last):
    """A change of targets of that kind, of some of these ids or of all."""
    change = {} if kind == "NO_CHANGE" and chance.random() < 0.7 else {"targetChangeType": chosen(chance, wrong, [kind], WRONG_CHANGES)}
    if chance.random() < (0.98 if kind == "REMOVE" else 0.85):
        change["targetIds"] = built_ids(chance, wrong, ids)
    if chance.random() < 0.4:
        change["resumeToken"] = chosen(chance, wrong, TOKENS, WRONG_TOKENS)
    if chance.random() < 0.1:
        change["readTime"] = built_time(chance, wrong, last)
    return {"targetChange": read_over(chance, wrong, change)}


def built_remove(chance, wrong, stream, last):
    """The answer to a remove request, or sometimes the end of a target for a cause."""
    closing = [number for number, opened in stream.incarnations.items() if any(not each.is_wanted and not each.has_ended for each in opened)]
    is_answer = closing and chance.random() < 0.85
    message = built_change(chance, wrong, closing if is_answer else sorted(stream.incarnations), "REMOVE", last)
    if chance.random() < (0.05 if is_answer else 0.95):
        message["targetChange"]["cause"] = built_status(chance, wrong) if chance.random() > wrong / 5 else chance.choice([5, [], "x"])
    return message


def built_point(chance, wrong, last):
    """A point, mostly one behind the last."""
    point = {"readTime": chosen(chance, wrong, [later(last, chance.choice([0, 1, 1, 1, 1, 2])), later(last, 1), near(chance, last)], WRONG_TIMES)}
    if chance.random() < 0.7:
        point["resumeToken"] = chosen(chance, wrong, TOKENS, WRONG_TOKENS)
    if chance.random() < 0.1:
        point["targetChangeType"] = chosen(chance, wrong, ["NO_CHANGE", "CURRENT", "ADD", "RESET", "REMOVE"], WRONG_CHANGES)
    if chance.random() < 0.1:
        point["targetIds"] = []
    return {"targetChange": read_over(chance, wrong, point)}


def built_document(chance, wrong, ids, last):
    """A document that some targets have by now, or have left."""
    fields = built_fields(chance, wrong, 2) if chance.random() < 0.2 else {name: over_known(chance, value) for name, value in plain_fields(chance, 2).items()}
    document = {"fields": fields, "name": built_name(chance, wrong), "updateTime": built_time(chance, wrong, last)}
    if fields and chance.random() < 0.03:
        deep = chance.choice(sorted(fields))
        document["fields"][deep] = nested_value(chance, fields[deep])
    if chance.random() < 0.3:
        document["createTime"] = chance.choice([FIRST_TIME, "x", 5, None])
    change = {"document": read_over(chance, wrong, document)}
    if chance.random() < 0.9:
        change["targetIds"] = built_ids(chance, wrong, ids)
    if chance.random() < 0.15:
        change["removedTargetIds"] = built_ids(chance, wrong, ids)
    return {"documentChange": read_over(chance, wrong, change)}


def built_gone(chance, wrong, stream, ids, last):
    """A document that is gone, or that some targets have left: mostly one that they were told."""
    told = sorted(set().union(*(found.told() for found in stream.counting().values())))
    gone = {"document": chance.choice(told) if told and chance.random() < 0.8 else built_name(chance, wrong)}
    if chance.random() < 0.95:
        gone["removedTargetIds"] = built_ids(chance, wrong, ids)
    if chance.random() < 0.8:
        gone["readTime"] = built_time(chance, wrong, last)
    return {chance.choice(["documentDelete", "documentRemove"]): read_over(chance, wrong, gone)}


def built_filter(chance, wrong, stream, ids):
    """A filter, mostly with the count that its target was told."""
    number, counting = chance.choice(ids + [chance.choice(OTHER_IDS)]), stream.counting()
    count = len(counting[number].told()) if number in counting else 0
    count = count if chance.random() < 0.8 else chance.choice([count + 1, max(count - 1, 0), 0, 2147483647, str(count)])
    found = {} if count == 0 and chance.random() < 0.5 else {"count": chosen(chance, wrong, [count], WRONG_COUNTS)}
    if chance.random() < 0.97:
        found["targetId"] = chosen(chance, wrong, [number], WRONG_NUMBERS)
    if chance.random() < 0.1:
        found["unchangedNames"] = chance.choice([{}, 5, "x", {"bits": {"bitmap": "AA=="}}])
    return {"filter": read_over(chance, wrong, found)}


def built_watched(chance, wrong, stream, last):
    """A message: mostly one that moves what was asked for on."""
    live, counting, kind = stream.live(), stream.counting(), chance.random()
    asked, ids, waiting = sorted(stream.asked()), sorted(counting), sorted(set(live) - set(counting))
    if asked and set(asked) - set(live) and kind < 0.4:
        return built_remove(chance, wrong, stream, last)
    if waiting and kind < 0.5:
        return built_change(chance, wrong, waiting, "ADD", last)
    if kind < 0.65:
        return built_document(chance, wrong, ids or asked, last)
    if kind < 0.72:
        return built_gone(chance, wrong, stream, ids or asked, last)
    if kind < 0.75:
        return built_filter(chance, wrong, stream, ids or asked)
    if kind < 0.84:
        current = [number for number in ids if not counting[number].is_current]
        return built_change(chance, wrong, current or asked, "CURRENT", last)
    if kind < 0.95:
        return built_point(chance, wrong, last)
    if kind < 0.97:
        return built_remove(chance, wrong, stream, last)
    return built_change(chance, wrong, asked, chance.choice(["ADD", "RESET", "NO_CHANGE", "NO_CHANGE"]), last)


def built_watch(chance, wrong, stream, last):
    if chance.random() < wrong / 5:
        return {"watch": chance.choice([None, 5, [], "x", True, {}, {"filter": {}, "targetChange": {}}, {"filter": 5}, {"targetChange": None}])}
    return {"watch": read_over(chance, wrong, built_watched(chance, wrong, stream, last))}


def built_timer(chance, wrong):
    return {"timer": spoil(chance, wrong / 3, {"name": chosen(chance, wrong, ["online"], ["offline", "", "ONLINE", None, 5, []])})}


def built_watch_message(chance, stream, last):
    """A line of the stream of listeners, as it stands and with this last read time, or the timer: mostly one that is due."""
    wrong, kind = chance.choice([0, 0, 0, 0, 0, 0, 0.02, 0.05, 0.3]), chance.random()
    if kind < 0.02:
        line = built_timer(chance, wrong)
    elif not stream.is_open and kind < 0.8:
        line = built_open(chance, wrong, "watch")
    elif kind < (0.035 if stream.is_open else 0.9):
        line = built_close(chance, wrong, "watch")
    elif kind < 0.04:
        line = built_open(chance, wrong, "watch")
    else:
        line = built_watch(chance, wrong, stream, last)
    return json.dumps(line, ensure_ascii=chance.random() < 0.5).encode()
