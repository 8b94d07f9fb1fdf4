"""What the measurements of listeners share: a store of one point with many documents of one collection, and listeners to it."""
import json
import os

from client import NAME_FRONT
from readers.commits import spell_entry, spell_list
from readers.journal_reader import appended, formatted

SECOND = 1714521600


def listen_line(number, collection, **query):
    target = {"parent": NAME_FRONT[:-1], "structuredQuery": {"from": [{"collectionId": collection}], **query}}
    return json.dumps({"listen": {"id": number, "target": {"query": target}}}).encode() + b"\n"


def put_point(folder, count, value_of=int):
    """A journal of one point, with so many documents in the collection; the field n of each has a value of its number."""
    moment = (SECOND, 0)
    entries = [spell_entry([b"rooms", b"d%07d" % number], [(b"n", (2, value_of(number)))], moment) for number in range(count)]
    payload = b"\1\5" + SECOND.to_bytes(8, "big") + bytes(4) + spell_list(entries) + spell_list([])
    with open(os.path.join(folder, "journal.0"), "wb") as file:
        file.write(appended(formatted(b""), payload))
