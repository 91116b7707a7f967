"""Archive files: random ones, whole and damaged, with commands that read them.

Nothing here answers a command; that is records.py.
"""

import sys

sys.dont_write_bytecode = True
from records import MARK, RECORD_BYTES, Record, hex_of, parts_of, write_command, written

PAIR_LIMITS = [0, 1, 255, 256, 65535]  # of an id, a year and a revision
COUNT_LIMITS = [0, 1, 2**64 - 1, 2**64, 2**127, 2**128 - 1]
# In a shorter word, or times 24 in one of 64 bits, some of these are a place near 0.
FAR_PLACES = [2**8, 2**16, 2**32, 2**61, 2**63, 2**64 - 1]
ROOMS = [0, 1, 2, 8, 23, 24, 25, 31, 48, 64]


def file_of(records):
    return b"".join(map(written, records))


def count_command(file):
    return f"records {hex_of(file)}"


def place_command(file, place):
    return f"record {hex_of(file)} {place}"


def current_command(file, plot_id):
    return f"current {hex_of(file)} {plot_id}"


# Records.


def some_pair(draws):
    """A number of two bytes: a limit, one of few, or any."""
    kind = draws.below(4)
    if kind == 0:
        return draws.one_of(PAIR_LIMITS)
    return draws.below(4) + 2020 if kind < 3 else draws.below(2**16)


def some_count(draws):
    kind = draws.below(4)
    if kind == 0:
        return draws.one_of(COUNT_LIMITS)
    if kind == 1:
        return draws.below(1000)
    return draws.word() << (64 if kind == 2 else 0) | draws.word()


def some_record(draws):
    return Record(some_pair(draws), some_pair(draws), some_pair(draws), some_count(draws))


def pool(draws):
    """Few numbers of two bytes, so that records share them."""
    return [some_pair(draws) for _ in range(1 + draws.below(3))]


def some_records(draws, number):
    """So many records with few ids, years and revisions; now and then one stands twice."""
    ids, years, revisions = pool(draws), pool(draws), pool(draws)
    found = []
    while len(found) < number:
        fields = draws.one_of(ids), draws.one_of(years), draws.one_of(revisions)
        again = found and draws.one_in(12)
        found.append(draws.one_of(found) if again else Record(*fields, some_count(draws)))
    return found


# Damages: each takes a file of a record or more and gives another.


def cut(draws, file):
    """The file without some of its last bytes: up to a record's, or any number of them."""
    return file[: len(file) - 1 - draws.below(draws.one_of([1, 2, RECORD_BYTES, len(file)]))]


def with_byte(file, at, byte):
    return file[:at] + bytes([byte]) + file[at + 1 :]


def other_byte(draws, byte):
    """Another byte: a bit changed, the other letter of the mark, or any other one."""
    found = draws.one_of([byte ^ 1 << draws.below(8), *MARK, draws.below(256)])
    return found if found != byte else byte ^ 0x20


def with_other_mark(draws, file):
    """The file with one or two marks changed in a byte."""
    for _ in range(1 + draws.below(2)):
        at = RECORD_BYTES * draws.below(len(parts_of(file))) + draws.below(2)
        if at < len(file):
            file = with_byte(file, at, other_byte(draws, file[at]))
    return file


def with_other_body(draws, file):
    at = draws.below(len(file))
    return with_byte(file, at, other_byte(draws, file[at]))


def with_bytes_behind(draws, file):
    """The file with bytes behind it, many of them like those of a record."""
    more = written(some_record(draws)) + bytes(RECORD_BYTES)
    return file + more[: 1 + draws.below(draws.one_of([1, 2, RECORD_BYTES, len(more)]))]


def shifted(draws, file):
    """The file with a byte put in or taken out."""
    at = draws.below(len(file))
    return file[:at] + (bytes([draws.below(256)]) + file[at:] if draws.one_in(2) else file[at + 1 :])


DAMAGES = [cut, cut, with_other_mark, with_other_mark, with_other_body, with_bytes_behind, shifted]


def some_file(draws):
    """A file of up to 7 records, now and then of more or of none; half are whole, some damaged twice."""
    number = 1 + draws.below(7) if draws.below(12) else draws.one_of([0, draws.below(40)])
    file = file_of(some_records(draws, number))
    if draws.one_in(2):
        return file
    for _ in range(1 + draws.one_in(4)):
        file = draws.one_of(DAMAGES)(draws, file) if file else file
    return file


# Commands on a file.


def some_place(draws, file):
    """A place: one of a record, one just behind them, or one far off."""
    number = len(parts_of(file))
    kind = draws.below(8)
    if kind == 0:
        return draws.one_of([number, number + 1])
    if kind == 1:
        return min(draws.one_of(FAR_PLACES) + draws.below(number + 1), 2**64 - 1)
    return draws.below(number or 1)


def some_id(draws, file):
    """An id: that of some record, one near it, or another one."""
    part = draws.one_of(parts_of(file) or [b""])
    found = int.from_bytes(part[2:4], "big")
    kind = draws.below(8)
    if kind == 0:
        return draws.one_of([found ^ 1, found ^ 256, found % 256 * 256 + found // 256])
    return some_pair(draws) if kind == 1 else found


def some_commands(draws, file):
    """The three reading calls on a file, and a record that is written."""
    place, plot_id = some_place(draws, file), some_id(draws, file)
    commands = [count_command(file), place_command(file, place), current_command(file, plot_id)]
    return [*commands, write_command(some_record(draws), draws.one_of(ROOMS))]
