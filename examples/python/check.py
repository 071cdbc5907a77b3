#!/usr/bin/env python3
"""check.py FILE [STANDING]: decides the first demand table of a file of tables beside its first supply table, in both modes, and prints what `slots FILE`
prints: the two verdicts, and the run of a no. STANDING is a set of resources that every slot grants besides: the sum of 2 to the power r for each
resource r, 0 where it is left out. `./library` makes the shared library that this calls; include/slots.h says what each call takes and reports."""
import argparse
import ctypes
import struct
import sys
from pathlib import Path

LIBRARY = Path(__file__).resolve().parents[2] / 'target' / 'libslots.so'

# Of include/slots.h.
OK, WRONG_KIND = 0, 12
FULL, PARTIAL = 0, 1
REPORT, MOST_FILE = 24, 32866
ROW_WORDS = {65535: 'idle', 65534: 'none'}

DEMAND, SUPPLY = 1, 2  # the kinds of tables


class Refused(Exception):
    """A call that is turned back, by the number of a reason; the place is an offset in the file."""

    def __init__(self, reason, place):
        super().__init__(f'refused {reason} at {place}')
        self.reason = reason
        self.place = place


def load(path):
    """The library. Without the types ctypes would take each number for a C int."""
    library = ctypes.CDLL(str(path))
    read = [ctypes.c_char_p, ctypes.c_size_t]
    written = [ctypes.POINTER(ctypes.c_char), ctypes.c_size_t]
    question = read + 5 * [ctypes.c_uint64] + [ctypes.c_uint16]
    library.slots_open.argtypes = read + written
    library.slots_decide.argtypes = question + written + written
    library.slots_run.argtypes = question + written + written + written
    for function in library.slots_open, library.slots_decide, library.slots_run:
        function.restype = ctypes.c_uint64
    return library


def call(function, *arguments):
    """Calls a function with a report behind its other arguments, and gives the three numbers reported."""
    report = ctypes.create_string_buffer(REPORT)
    reason = function(*arguments, report, len(report))
    numbers = struct.unpack('<3Q', report.raw)
    if reason != OK:
        raise Refused(reason, numbers[0])
    return numbers


def first_table(file, k, kind):
    """The number of the first table of a kind. The contents have 6 bytes for each table, from byte 2 on, of which the first is the kind."""
    for table in range(k):
        if file[2 + 6 * table] == kind:
            return table
    raise Refused(WRONG_KIND, 0)


def state_count(file, table):
    """A table's n, the byte behind its kind."""
    return file[2 + 6 * table + 1]


def start_state(file, table):
    """The state from which a table starts: 1, or 0 where there is no other."""
    return 0 if state_count(file, table) == 1 else 1


def row_word(row):
    return ROW_WORDS.get(row, str(row))


def verdict_lines(library, question, standing, mode):
    """Decides in one mode: the verdict, and the steps of a no."""
    file, _, demand, supply, _, _ = question
    pairs = state_count(file, demand) * state_count(file, supply)
    marks = ctypes.create_string_buffer(2 * pairs)
    yes, kept, rounds = call(library.slots_decide, *question, mode, standing, marks, len(marks))
    lines = [f'{"full" if mode == FULL else "partial"} {"yes" if yes else "no"} rounds {rounds} kept {kept}']
    if not yes:
        steps = ctypes.create_string_buffer(4 * pairs)
        count, _, _ = call(library.slots_run, *question, mode, standing, marks, len(marks), steps, len(steps))
        for supply_row, task_row in struct.iter_unpack('<2H', steps.raw[:4 * count]):
            lines.append(f'step {row_word(supply_row)} {row_word(task_row)}')
    return lines


def check(library, file, standing):
    """The lines for a file's bytes."""
    k, _, _ = call(library.slots_open, file, len(file))
    demand, supply = first_table(file, k, DEMAND), first_table(file, k, SUPPLY)
    starts = start_state(file, demand), start_state(file, supply)
    question = file, len(file), demand, supply, *starts
    return [f'slots {len(file)} bytes {k} tables', f'demand {demand} supply {supply} start {starts[0]} {starts[1]}',
            *verdict_lines(library, question, standing, FULL), *verdict_lines(library, question, standing, PARTIAL)]


def set_of(text):
    """A set from its number. ctypes would cut a larger one to 16 bits without a word."""
    number = int(text)
    if not 0 <= number <= 65535:
        raise ValueError
    return number


def main():
    parser = argparse.ArgumentParser(description='Decides the first demand table of a file beside its first supply table.')
    parser.add_argument('file')
    parser.add_argument('standing', nargs='?', type=set_of, default=0, help='a number from 0 to 65535')
    arguments = parser.parse_args()
    try:
        library = load(LIBRARY)
        with open(arguments.file, 'rb') as opened:
            file = opened.read(MOST_FILE + 1)  # a longer file is still too long when it is cut to this
    except OSError as error:
        print(error, file=sys.stderr)
        return 1
    try:
        print(*check(library, file, arguments.standing), sep='\n')
    except Refused as refused:
        print(refused)  # an answer too, with the status of `slots`
    return 0


if __name__ == '__main__':
    sys.exit(main())
