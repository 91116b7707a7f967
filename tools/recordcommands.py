"""The commands of the program replay_records: records written, counted, found by place and by id.

Each section answers a list of commands. Their answers are the model's of records.py. Where an answer
stands beside a command it was read off document 02 by hand, and the model is held to it; every answer
is held to a second reading, which is by struct.
"""

import itertools
import struct
import sys

sys.dont_write_bytecode = True
import recordfiles
import records
from knownplots import different
from plots import stop
from recordfiles import COUNT_LIMITS, FAR_PLACES, PAIR_LIMITS, count_command, current_command
from recordfiles import file_of, place_command, with_byte
from records import RECORD_BYTES, Record, write_command

LAYOUT = struct.Struct(">2sHHHQQ")  # the high word stands before the low one


def second_answer(command):
    """The answer by another way than the model's."""
    name, *fields = command.split(" ")
    if name == "write":
        plot_id, year, revision, low, high, room = map(int, fields)
        out = bytearray(room)
        if room < 24:
            return f"refused 8 {out.hex() or '-'}"
        LAYOUT.pack_into(out, 0, b"TY", plot_id, year, revision, high, low)
        return out.hex()
    file = bytes.fromhex(fields[0].strip("-"))
    found = []
    for at in range(0, len(file), 24):
        if len(file) < at + 24 or file[at : at + 2] != b"TY":
            return f"refused 13 {at // 24}"
        found.append(LAYOUT.unpack_from(file, at)[1:])
    if name == "records":
        return str(len(found))
    number = int(fields[1])
    if name == "record":
        found = found[number : number + 1]
    else:
        mine = [record for record in found if record[0] == number]
        found = sorted(mine, key=lambda record: record[1:3])[-1:]
    if not found:
        return "refused 14"
    plot_id, year, revision, high, low = found[0]
    return f"{plot_id} {year} {revision} {low} {high}"


def held(commands):
    """The different commands, their answers held to the second reading."""
    for command in commands:
        answers = records.answer(command), second_answer(command)
        if answers[0] != answers[1]:
            stop(f"{command}: the model has {answers[0]}, the second reading {answers[1]}")
    return different(commands)


def held_pairs(pairs):
    """Commands, each with its answer by hand, to which the model is held."""
    pairs = list(pairs)
    for command, expected in pairs:
        if records.answer(command) != str(expected):
            stop(f"{command}: 02 has {expected}, the model {records.answer(command)}")
    return held([command for command, _ in pairs])


def readings(file, plot_id=7):
    """The three calls on a file: counted, its records at the first places and behind, and an id."""
    places = range(len(records.parts_of(file)) + 1)
    commands = [count_command(file), *(place_command(file, place) for place in places)]
    return [*commands, current_command(file, plot_id)]


def entry(year, revision, count=0, plot_id=7):
    return Record(plot_id, year, revision, count)


THREE = [Record(7, 2024, 1, 12988816), Record(8, 2025, 0, 2**64 + 5), Record(7, 2024, 0, 3)]
TEXTS = [  # the bytes of THREE, by hand
    "5459" "0007" "07e8" "0001" "0000000000000000" "0000000000c63190",
    "5459" "0008" "07e9" "0000" "0000000000000001" "0000000000000005",
    "5459" "0007" "07e8" "0000" "0000000000000000" "0000000000000003",
]
FIELDS = ["7 2024 1 12988816 0", "8 2025 0 5 1", "7 2024 0 3 0"]  # their answers, by hand


def by_hand(_draws, _ask):
    """Files and records whose bytes and answers were written by hand."""
    one, two, three = TEXTS[0], TEXTS[0] + TEXTS[1], "".join(TEXTS)
    pairs = [(f"write {fields} 24", text) for fields, text in zip(FIELDS, TEXTS)]
    pairs += [(f"write {FIELDS[1]} 26", TEXTS[1] + "0000"), (f"write {FIELDS[1]} 0", "refused 8 -")]
    pairs += [(f"write {FIELDS[0]} 23", "refused 8 " + 23 * "00")]
    pairs += [(f"records {file}", n) for n, file in enumerate(["-", one, two, three])]
    pairs += [(f"record {three} {place}", FIELDS[place]) for place in range(3)]
    pairs += [(f"record {three} 3", "refused 14"), ("record - 0", "refused 14")]
    pairs += [(f"current {three} 7", FIELDS[0]), (f"current {three} 8", FIELDS[1])]
    pairs += [(f"current {three} 9", "refused 14"), ("current - 0", "refused 14")]
    pairs += [(f"records {one}54", "refused 13 1"), (f"record {two}54 0", "refused 13 2")]
    pairs += [(f"current {two[:-2]} 7", "refused 13 1"), ("records 5459", "refused 13 0")]
    return held_pairs(pairs)


def writing(_draws, _ask):
    """Every room near a record's bytes, and each field at its limits."""
    commands = [write_command(record, room) for record in THREE for room in range(65)]
    for numbers in itertools.product(PAIR_LIMITS, repeat=3):
        commands.append(write_command(Record(*numbers, 2**64 + 2), 24))
    words = [0, 1, 255, 256, 2**32, 2**63, 2**64 - 1]
    for low, high in itertools.product(words, repeat=2):
        record = Record(258, 2026, 772, records.count_of(low, high))
        commands.append(write_command(record, 24 if low < high else 25))
    return held(commands)


def cut_files(_draws, _ask):
    """A file of three records cut at every length: 13 unless whole records are left."""
    pairs = []
    for length in range(3 * RECORD_BYTES + 1):
        number, rest = divmod(length, RECORD_BYTES)
        file = file_of(THREE)[:length]
        asked = [count_command(file), place_command(file, 0), place_command(file, number)]
        asked += [current_command(file, 7), current_command(file, 8)]
        broken = f"refused 13 {number}" if rest else None
        found = [FIELDS[0], FIELDS[1]] if number > 1 else [FIELDS[0], "refused 14"]
        sound = [number, FIELDS[0] if number else "refused 14", "refused 14"]
        sound += found if number else ["refused 14", "refused 14"]
        pairs += [(command, broken or answer) for command, answer in zip(asked, sound)]
    return held_pairs(pairs)


OTHER_MARKS = ["5454", "5959", "5954", "7479", "5479", "7459", "5400", "0059", "5458", "555a"]
OTHER_MARKS += ["0000", "ffff", "d459", "54d9", "4f52", "454e"]


def other_marks(_draws, _ask):
    """Other marks, and marks with one bit changed, in the place of each of three records."""
    marks = [bytes.fromhex(text) for text in OTHER_MARKS]
    for at, bit in itertools.product(range(2), range(8)):
        marks.append(with_byte(records.MARK, at, records.MARK[at] ^ 1 << bit))
    pairs = []
    for place, mark in itertools.product(range(3), different(marks)):
        texts = [*TEXTS[:place], mark.hex() + TEXTS[place][4:], *TEXTS[place + 1 :]]
        file = bytes.fromhex("".join(texts))
        asked = [count_command(file), place_command(file, 0), current_command(file, 7)]
        pairs += [(command, f"refused 13 {place}") for command in asked]
    return held_pairs(pairs)


def other_bodies(_draws, _ask):
    """Each byte behind the mark with other values: the record is whole, with another field."""
    commands = []
    file = file_of(THREE)
    for at, byte in itertools.product(range(2, RECORD_BYTES), (0, 1, 128, 255)):
        changed = with_byte(file[:RECORD_BYTES], at, byte)
        plot_id = int.from_bytes(changed[2:4], "big")
        commands += [place_command(changed, 0), current_command(changed, plot_id)]
    for at in range(RECORD_BYTES, 2 * RECORD_BYTES):
        changed = with_byte(file, at, 0x59)
        commands += [place_command(changed, place) for place in range(2)]
        commands.append(current_command(changed, 8))
    for text in ("5459", "5945"):  # fields that look like marks
        alike = bytes.fromhex("5459" + 11 * text)
        commands += readings(3 * alike, int(text, 16)) + readings(3 * alike + b"TY")
    return held(commands)


def broken_twice(_draws, _ask):
    """Several broken records: the place of the earliest is told, before any 14."""
    pairs = []
    for number in (2, 3, 5):
        file = file_of(entry(2020, place) for place in range(number))
        for places in itertools.combinations(range(number), 2):
            other = file
            for place in places:
                other = with_byte(other, RECORD_BYTES * place + place % 2, 0)
            asked = [count_command(other), place_command(other, 0), place_command(other, number)]
            asked += [current_command(other, 7), current_command(other, 9)]
            asked += [count_command(other[:-1]), place_command(other + b"T", number - 1)]
            pairs += [(command, f"refused 13 {places[0]}") for command in asked]
        behind = [file + b"\0", file[:-1], file + b"TX" + file[2:], file + b"TY", file + 24 * b"\0"]
        for other in behind:
            place = len(file[: len(other)]) // RECORD_BYTES
            pairs += [(command, f"refused 13 {place}") for command in readings(other, 9)]
    return held_pairs(pairs)


# Years and revisions of the records of id 7, and the place of the one that counts, by hand.
TIES = [
    ("2024.0", 0),
    ("2024.0 2024.0", 1),
    ("2024.0 2024.0 2024.0", 2),
    ("2024.1 2024.0", 0),
    ("2024.0 2024.1", 1),
    ("2024.1 2024.0 2024.1", 2),
    ("2024.1 2024.1 2024.0", 1),
    ("2025.0 2024.9", 0),
    ("2024.9 2025.0", 1),
    ("2023.9 2025.0 2024.9", 1),
    ("2025.0 2024.9 2025.0", 2),
    ("2025.0 2025.1 2024.2 2025.1 2025.0", 3),
    ("0.0 0.0", 1),
    ("0.0 0.1 1.0", 2),
    ("1.0 0.65535", 0),
    ("0.65535 1.0 0.65535", 1),
    ("255.0 256.0", 1),
    ("256.0 255.255", 0),
    ("2024.255 2024.256", 1),
    ("2024.256 2024.255", 0),
    ("65535.65535 65535.65535", 1),
    ("65535.0 65534.65535", 0),
    ("32767.0 32768.0", 1),
    ("32768.0 32767.1", 0),
]


def tied_records(text):
    """The records of a text, each with a count of its own."""
    pairs = [map(int, word.split(".")) for word in text.split()]
    return [entry(*pair, count) for count, pair in enumerate(pairs, 100)]


def ties(_draws, _ask):
    """Records of one id that share years and revisions; with those of other ids between; twice."""
    pairs = []
    for text, place in TIES:
        mine = tied_records(text)
        expected = records.fields_of(mine[place])
        others = [Record(plot_id, 65535, 65535, 1) for plot_id in (6, 8, 263, 1792)]
        mixed = [record for pair in zip(mine, itertools.cycle(others)) for record in pair]
        for some in (mine, mixed, [*others, *mine], [*mine, *others]):
            pairs.append((current_command(file_of(some), 7), expected))
        again = mine + [mine[place]]
        pairs.append((current_command(file_of(again), 7), expected))
        pairs.append((count_command(file_of(again)), len(again)))
    return held_pairs(pairs)


def orders(_draws, _ask):
    """Every order of four records, two of which share year and revision."""
    some = [entry(2024, 1, 1), entry(2024, 1, 2), entry(2023, 2, 3), entry(2024, 0, 4)]
    files = [file_of(order) for order in itertools.permutations(some)]
    return held([current_command(file, 7) for file in files])


def limits(_draws, _ask):
    """Ids, years, revisions and counts at their limits, alone and against each other."""
    commands = []
    for number in PAIR_LIMITS:
        for record in (Record(number, 1, 2, 3), Record(1, number, 2, 3), Record(1, 2, number, 3)):
            file = file_of([record])
            commands += [place_command(file, 0), current_command(file, record.id)]
    for one, other in itertools.product(PAIR_LIMITS, repeat=2):
        for pair in ([entry(one, 5, 1), entry(other, 5, 2)], [entry(5, one, 1), entry(5, other, 2)]):
            commands.append(current_command(file_of(pair), 7))
        apart = file_of([entry(1, 1, 1, one), entry(1, 1, 2, other)])
        commands += [current_command(apart, one), current_command(apart, other)]
    counts = COUNT_LIMITS + [records.count_of(5, 2**63), records.count_of(2**63, 5)]
    for count in counts:
        file = file_of([entry(1, 1), entry(1, 2, count)])
        commands += [place_command(file, 1), current_command(file, 7)]
    return held(commands)


def places(_draws, _ask):
    """Places of files of 0 to 5 records: each record's, those behind, and far ones."""
    commands = []
    for number in range(6):
        file = file_of(entry(2020, place, 11 * place) for place in range(number))
        far = [place + more for place in FAR_PLACES[:-1] for more in (0, 1)]
        commands += [place_command(file, place) for place in [*range(number + 2), *far]]
        commands += [place_command(file, 2**64 - 1), place_command(file + b"T", 2**64 - 1)]
        commands.append(place_command(file, 2**64 - 1 - number))
    return held(commands)


def absent_ids(_draws, _ask):
    """Ids that no record has: near one that a record has, and 0 and 65535."""
    commands = []
    for plot_id in (7, 256, 1792, 65535):
        file = file_of([entry(2024, 0, 1, plot_id), entry(2024, 1, 2, plot_id)])
        near = [plot_id ^ 1, plot_id ^ 256, plot_id % 256 * 256 + plot_id // 256]
        for other in [*near, plot_id ^ 0x8000, plot_id // 256, 2024, 0, 65535]:
            commands += [current_command(some, other) for some in (file, file[:-1], b"")]
    return held(commands)


def long_files(draws, _ask):
    """Files of 20, 40 and 170 records, whole and cut; the program's 4,096 bytes hold 170."""
    commands = []
    for number in (20, 40, 170):
        found = recordfiles.some_records(draws, number)
        file, plot_id = file_of(found), found[0].id
        commands += [place_command(file, number - 1), current_command(file, plot_id)]
        commands.append(count_command(file[:-1]))
    return held(commands)


def random_files(draws, _ask):
    """Random files with the three reading calls, and random records."""
    commands = []
    while len(commands) < 400:
        file = recordfiles.some_file(draws)
        if len(file) <= 8 * RECORD_BYTES:
            commands += recordfiles.some_commands(draws, file)
    return held(commands)


SECTIONS = [by_hand, writing, cut_files, other_marks, other_bodies, broken_twice, ties, orders]
SECTIONS += [limits, places, absent_ids, long_files, random_files]
