"""The model of the archive file and of its commands, written from request 1 of document 02.

A file is bytes. A record has its count as one number, of which a command and an answer have the low
word and the high word.
"""

import collections
import sys

sys.dont_write_bytecode = True
from plots import stop

MARK = b"TY"
SIZES = {"id": 2, "year": 2, "revision": 2, "count": 16}  # bytes of a record behind its mark
RECORD_BYTES = len(MARK) + sum(SIZES.values())

Record = collections.namedtuple("Record", SIZES)


def count_of(low, high):
    """The count of two words."""
    return high << 64 | low


def words_of(count):
    """The low and the high word of a count."""
    return count % 2**64, count >> 64


def written(record):
    """The bytes of a record: the mark, then each number highest byte first."""
    numbers = zip(record, SIZES.values())
    return MARK + b"".join(number.to_bytes(size, "big") for number, size in numbers)


def parts_of(file):
    """The bytes of each record in order; the last may be cut short."""
    return [file[at : at + RECORD_BYTES] for at in range(0, len(file), RECORD_BYTES)]


def is_sound(part):
    return len(part) == RECORD_BYTES and part.startswith(MARK)


def read(part):
    """The record of its bytes."""
    numbers, at = [], len(MARK)
    for size in SIZES.values():
        numbers.append(int.from_bytes(part[at : at + size], "big"))
        at += size
    return Record(*numbers)


def broken_place(file):
    """The place of the earliest record that is cut short or whose mark is another, or none."""
    return next((place for place, part in enumerate(parts_of(file)) if not is_sound(part)), None)


def records_of(file):
    """The records of a sound file."""
    return [read(part) for part in parts_of(file)]


def record_at(records, place):
    """The record at a place, or none."""
    return records[place] if place < len(records) else None


def current(records, plot_id):
    """The record of an id with the highest year, then the highest revision, then the last; or none."""
    found = [(r.year, r.revision, place) for place, r in enumerate(records) if r.id == plot_id]
    return records[max(found)[2]] if found else None


# The commands and their answers.


def hex_of(data):
    return data.hex() or "-"


def bytes_in(text):
    return b"" if text == "-" else bytes.fromhex(text)


def write_command(record, room):
    low, high = words_of(record.count)
    return f"write {record.id} {record.year} {record.revision} {low} {high} {room}"


def answer_to_write(plot_id, year, revision, low, high, room):
    """The output of so many bytes: the record with zeros behind, or 8 and zeros alone."""
    if room < RECORD_BYTES:
        return f"refused 8 {hex_of(bytes(room))}"
    record = Record(plot_id, year, revision, count_of(low, high))
    return hex_of(written(record).ljust(room, b"\0"))


def fields_of(record):
    """A record as in an answer; 14 if there is none."""
    if record is None:
        return "refused 14"
    low, high = words_of(record.count)
    return f"{record.id} {record.year} {record.revision} {low} {high}"


READERS = {
    "records": len,
    "record": lambda records, place: fields_of(record_at(records, place)),
    "current": lambda records, plot_id: fields_of(current(records, plot_id)),
}
COMMANDS = ("write", *READERS)


def answer(command):
    """The answer to one of the COMMANDS. A broken file is 13, whatever is asked."""
    name, *fields = command.split(" ")
    if name == "write":
        return answer_to_write(*map(int, fields))
    if name not in READERS:
        stop(f"{command}: no command on archive files")
    file = bytes_in(fields[0])
    place = broken_place(file)
    if place is not None:
        return f"refused 13 {place}"
    return str(READERS[name](records_of(file), *map(int, fields[1:])))
