#!/usr/bin/env python3
"""judge.py LIBRARY PLAN CANDIDATE: judges two files through a shared library of the judge, by ctypes.

Prints the verdict as the program plan_judge does, but each name as the plan text writes it; behind a refusal that has a
faulty part a line with it. The library alone decides; the names are commentary. The exit status is 0 if accepted, 1 if
refused, 2 for wrong usage or a file that can't be read. The library is linked from the static one:

    gcc -shared -o libplan_judge.so -Wl,--whole-archive target/staticlib/libjudge_c.a -Wl,--no-whole-archive
"""
import ctypes
import os
import struct
import sys

ROOM_BYTES = 24592
CYCLE_PLACES = 1024
CANDIDATE = 7  # the refusal whose place is in the candidate
CYCLE = 10  # the refusal that has a list of atoms
DEEPEST = 50  # a term that is nested deeper is written by its number

BYTES = [ctypes.c_char_p, ctypes.c_size_t]
ROOM = [ctypes.c_void_p, ctypes.c_size_t]


def library(path):
    """The library's functions, with the types that plan_judge.h gives them."""
    judge = ctypes.CDLL(os.path.abspath(path))
    judge.plan_judge.argtypes = BYTES + BYTES + ROOM + ROOM
    judge.plan_time.argtypes = BYTES + [ctypes.c_uint32]
    judge.plan_shown.argtypes = BYTES + BYTES + [ctypes.c_uint32, ctypes.c_uint32]
    for function in (judge.plan_judge, judge.plan_time, judge.plan_shown):
        function.restype = ctypes.c_uint64
    return judge


def halves(answer):
    """The two halves of an answer."""
    return answer >> 32, answer & 0xFFFFFFFF


def judging(judge, text, cand):
    """The number (0 if accepted) and the place or length of a judging, the timetable, and the cycle's atoms."""
    room = ctypes.create_string_buffer(ROOM_BYTES)
    cycle = (ctypes.c_uint32 * CYCLE_PLACES)()
    number, place = halves(judge.plan_judge(text, len(text), cand, len(cand), room, ROOM_BYTES, cycle, CYCLE_PLACES))
    return number, place, room.raw[: place if number == 0 else 0], cycle[: place if number == CYCLE else 0]


def times(judge, table):
    """The term number and the time of each name of a timetable."""
    names = [struct.unpack_from("<I", table, 16 + 8 * i)[0] for i in range(struct.unpack_from("<I", table)[0])]
    return [(term, halves(judge.plan_time(table, len(table), term))[1]) for term in names]


def shown(judge, text, cand, number, place):
    """The faulty part of the text or the candidate; nothing if there is none."""
    start, length = halves(judge.plan_shown(text, len(text), cand, len(cand), number, place))
    return (cand if number == CANDIDATE else text)[start : start + length]


def lines(text):
    """The lines of an accepted text, which all end as the first one does: in byte 10 alone or in 13 10."""
    end = "\r\n" if text.partition(b"\n")[0].endswith(b"\r") else "\n"
    return text.decode("utf-8", "replace").split(end)


def terms(text):
    """The theory terms of an accepted text by number: a string, or a function and its arguments."""
    found = {}
    for line in lines(text):
        fields = line.split(" ")
        if fields[:2] == ["9", "0"]:
            found[int(fields[2])] = fields[3]
        elif fields[:2] == ["9", "1"]:
            found[int(fields[2])] = line.split(" ", 4)[4]
        elif fields[:2] == ["9", "2"]:
            found[int(fields[2])] = (int(fields[3]), [int(field) for field in fields[5:]])
    return found


def name(found, term, depth=0):
    """A term in words: a string, f(x,y), a tuple, a set, a list; an operator stands before its arguments, too."""
    what = found.get(term, f"#{term}")
    if depth > DEEPEST:
        return f"#{term}"
    if isinstance(what, str):
        return what
    function, arguments = what
    inside = ",".join(name(found, argument, depth + 1) for argument in arguments)
    before, after = {-1: "()", -2: "{}", -3: "[]"}.get(function, "()")
    return (name(found, function, depth + 1) if function >= 0 else "") + before + inside + after


def sign(byte):
    """One byte of a part: as it is from space to tilde, but as \\xNN a backslash and any other."""
    return chr(byte) if 32 <= byte <= 126 and byte != 92 else f"\\x{byte:02x}"


def verdict(judge, text, cand):
    """The exit status of a judging and what it prints."""
    number, place, table, cycle = judging(judge, text, cand)
    if number == 0:
        found = terms(text)
        lines = ["accepted %d %d" % struct.unpack_from("<II", table)]
        lines += [f"{name(found, term)} {time}" for term, time in times(judge, table)]
        return 0, lines
    lines = [f"refused {number} {place}"]
    if cycle:
        lines.append(" ".join(map(str, cycle)))
    part = shown(judge, text, cand, number, place)
    if part:
        lines.append("shown " + "".join(map(sign, part)))
    return 1, lines


def main(arguments):
    """Judges the files that the arguments name; gives the exit status."""
    if len(arguments) != 3:
        print("usage: judge.py LIBRARY PLAN CANDIDATE", file=sys.stderr)
        return 2
    try:
        judge = library(arguments[0])
        text, cand = (open(path, "rb").read() for path in arguments[1:])
    except OSError as fault:
        print(f"judge.py: {fault}", file=sys.stderr)
        return 2
    status, lines = verdict(judge, text, cand)
    print("\n".join(lines))
    return status


if __name__ == "__main__":
    sys.exit(main(sys.argv[1:]))
