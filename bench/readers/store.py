"""What commits make of a store, by the description in docs/FORMATS.md alone.

A document is a pair: its fields by name, as effects.py has them, and its update time or None. An entry is a triple: the document
or None, its version, and whether what it says is known; beside it stands its seal, None where it was seen, or the time of a commit.
Times are as they are printed. What the pending writes of a name make of its document is worked out anew where one of them goes, and
kept until then.
"""
from readers.effects import array_after, at_path, masked, path_names, printed_fields, read_time, stored_fields, stored_value, transformed, with_path

MOST_WRITES = 500
LAST_ID = 2_147_483_646
ARRAYS = ("appendMissingElements", "removeAllFromArray")


class Unfit(Exception):
    """The commit fits no store, or not this one."""


def moment(time):
    """A time as something to compare."""
    front, _, rest = time[:-1].partition(".")
    return front, rest.ljust(9, "0")


def name_of(write):
    return write["delete"] if write.get("delete") is not None else write["update"]["name"]


def transforms_of(write):
    return write.get("updateTransforms") or []


def is_met(condition, document):
    if condition is None:
        return True
    if condition.get("exists") is not None:
        return condition["exists"] == (document is not None)
    return document is not None and document[1] is not None and moment(document[1]) == moment(read_time(condition["updateTime"]))


def set_fields(write, known):
    """The fields that an update sets, before its transforms, over the fields that are known."""
    fields = stored_fields(write["update"].get("fields") or {})
    if write.get("updateMask") is None:
        return fields
    return masked(known, fields, [tuple(path_names(path)) for path in write["updateMask"].get("fieldPaths") or []])


def after_pending(document, write, at):
    """The document after a pending write."""
    if not is_met(write.get("currentDocument"), document):
        return document
    if write.get("delete") is not None:
        return None
    fields = set_fields(write, document[0] if document else {})
    for transform in transforms_of(write):
        names = path_names(transform["fieldPath"])
        fields = with_path(fields, names, transformed(at_path(fields, names), transform, at))
    return fields, document[1] if document else None


def after_answer(entry, write, result, version):
    """The entry that an acknowledged write leaves."""
    if write.get("delete") is not None:
        return None, version, True
    document = entry[0] if entry else None
    if write.get("updateMask") is not None and not is_met(write.get("currentDocument"), document):
        return None, version, False
    fields = set_fields(write, document[0] if document else {})
    for transform, returned in zip(transforms_of(write), result["transformResults"]):
        names = path_names(transform["fieldPath"])
        found = at_path(fields, names)
        fields = with_path(fields, names, array_after(found, transform) if any(transform.get(name) is not None for name in ARRAYS) else stored_value(returned))
    return (fields, version), version, True


def is_result(write, result):
    """One value for each transform; but for a transform of an array it is no array and no map."""
    changes, values = transforms_of(write), result["transformResults"]
    return len(changes) == len(values) and all(
        any(change.get(name) is not None for name in ARRAYS) or not {"arrayValue", "mapValue"} & set(value) for change, value in zip(changes, values))


class Store:
    """The durable state that commits lead to."""

    def __init__(self):
        self.pending, self.next_batch, self.entries, self.last_read, self.rows = [], 1, {}, None, []
        self.pending_writes, self.local = {}, {}  # by name: the pending writes with their batches and times; the documents worked out so far

    def commit(self, kind, members):
        """Takes the commit, or raises Unfit."""
        getattr(self, kind.lower())(*members)

    def enqueue(self, batch, at, writes):
        if batch != self.next_batch or not 1 <= len(writes) <= MOST_WRITES:
            raise Unfit
        self.pending.append((batch, at, writes))
        self.next_batch += 1
        for write in writes:
            name = name_of(write)
            self.pending_writes.setdefault(name, []).append((batch, at, write))
            if name in self.local:
                self.local[name] = after_pending(self.local[name], write, at)

    def settled(self, batch):
        if not self.pending or self.pending[0][0] != batch:
            raise Unfit
        return self.pending[0][2]

    def leave(self):
        """Takes the first pending batch away."""
        batch, _, writes = self.pending.pop(0)
        for name in set(map(name_of, writes)):
            self.pending_writes[name] = [each for each in self.pending_writes[name] if each[0] != batch]
            self.local.pop(name, None)

    def acknowledge(self, batch, commit, results):
        writes = self.settled(batch)
        if len(writes) != len(results) or not all(map(is_result, writes, results)):
            raise Unfit
        after = dict(self.entries)
        for name in set(map(name_of, writes)):
            pairs = [(write, result) for write, result in zip(writes, results) if name_of(write) == name]
            version = max((result["updateTime"] or commit for _, result in pairs), key=moment)
            entry = self.entries[name][0] if name in self.entries else None
            if entry is None or moment(entry[1]) < moment(version):
                for write, result in pairs:
                    entry = after_answer(entry, write, result, version)
                after[name] = entry, commit
        self.entries = after
        self.leave()

    def reject(self, batch):
        self.settled(batch)
        self.leave()

    def allocate(self, number, target):
        if number != 2 * len(self.rows) + 2 or number > LAST_ID or any(row[0] == target for row in self.rows):
            raise Unfit
        self.rows.append((target, None))

    def row_of(self, number):
        """The row of a target, None where it is blank or there is none."""
        place = number // 2 - 1
        return self.rows[place][1] if number % 2 == 0 and 0 <= place < len(self.rows) else None

    def row_at(self, number):
        if number % 2 or not 2 <= number <= 2 * len(self.rows):
            raise Unfit
        return number // 2 - 1

    def point(self, at, entries, rows):
        places = [self.row_at(row["id"]) for row in rows]
        if self.last_read is not None and moment(at) < moment(self.last_read) or any(not row["token"] for row in rows):
            raise Unfit
        for name, entry in entries.items():
            found = (stored_fields(entry["fields"]), entry["version"]) if "fields" in entry else None
            self.entries[name] = (found, entry["version"] if found else entry["missingSince"], True), None
            self.local.pop(name, None)
        for place, row in zip(places, rows):
            self.rows[place] = self.rows[place][0], row
        self.last_read = at

    def reset(self, numbers):
        places = [self.row_at(number) for number in numbers]
        if all(self.rows[place][1] is None for place in places):
            raise Unfit
        self.blank(places)

    def drop(self, names, numbers):
        places = [self.row_at(number) for number in numbers]
        if not names:
            raise Unfit
        for name in names:
            self.entries.pop(name, None)
            self.local.pop(name, None)
        self.blank(places)

    def blank(self, places):
        for place in places:
            self.rows[place] = self.rows[place][0], None

    def names(self):
        """The names of the entries, and of pending writes."""
        return set(self.entries) | {name for name, writes in self.pending_writes.items() if writes}

    def is_pending(self, name):
        return bool(self.pending_writes.get(name))

    def is_touched(self, name):
        """Whether a pending write names it, or what an acknowledgement left of it is newer than the last point."""
        seal = self.entries.get(name, (None, None))[1]
        return self.is_pending(name) or seal is not None and (self.last_read is None or moment(seal) > moment(self.last_read))

    def gives_way(self, name, version):
        """Whether the entry of that name gives way to one that was seen at this version."""
        if name not in self.entries:
            return True
        (_, own, _), seal = self.entries[name]
        return moment(own) < moment(version) or seal is not None and moment(own) == moment(version)

    def found(self, name):
        """The document of that name with the pending writes laid over it, or None."""
        if name not in self.local:
            document = self.entries.get(name, ((None,),))[0][0]
            for _, at, write in self.pending_writes.get(name, []):
                document = after_pending(document, write, at)
            self.local[name] = document
        return self.local[name]

    def documents(self):
        """The fields of each document by its name, None where there is none."""
        found = {name: self.found(name) for name in self.names()}
        return {name: document and document[0] for name, document in found.items()}

    def shown(self, name):
        """What the line of a document says of it."""
        entry, seal = self.entries.get(name, ((None, None, False), None))
        document = self.found(name)
        state = "pending" if self.is_pending(name) else "unknown" if not entry[2] else "synced" if seal is None else "committed"
        body = {"exists": document is not None, "name": name, "state": state}
        if document and document[0]:
            body["fields"] = printed_fields(document[0])
        if document and document[1] is not None:
            body["updateTime"] = document[1]
        return body
