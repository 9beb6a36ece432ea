"""The toggle of rig.c from Python, with the same output, by ctypes alone: python3 examples/rig.py [libremus.so]

In Python a reading or a sink is an int, a bool, or None for a blank.
"""

import ctypes
import pathlib
import struct
import sys

BLANK, NUMBER, TRUTH = 0, 1, 2  # marks of a value
WORD, PAIR = 4, 8  # bytes of a word, and of a value: mark and content
MOST_SINKS = 7  # of any program
MOST_COMPILED = 41639  # bytes of a program that is made of a text

# What each refusal means, and what its place is. No call gives another number.
WHY = {
    1: ("the program is not as long as its counts call for", "bytes"),
    2: ("a byte of the program's tables is not legal", "byte"),
    3: ("a command is not legal", "byte"),
    4: ("a command names a location that it may not", "byte"),
    5: ("a command names no such port, or a value of another kind", "byte"),
    6: ("a command sets a source or a sink for the second time", "byte"),
    7: ("a reactor lacks a React, an AllocPoly, a Keep or a Sink", "byte"),
    8: ("memory is too short or too long", "words"),
    9: ("memory is not as this program left it", "word"),
    10: ("the readings are not a pair for each global", "words"),
    11: ("a reading is of the wrong kind, or its content is not legal", "reading"),
    12: ("the space for sinks is too short", "words needed"),
    13: ("no further turn can be counted", "place"),
    14: ("too few words are left for a new deployment", "reactor"),
    15: ("a new deployment would be too deep", "reactor"),
    16: ("a word of the text stands where it cannot", "byte"),
    17: ("a name of the text is unknown, unfit or repeated, or a count of operands is wrong", "byte"),
    18: ("the output space is too short", "bytes needed"),
    19: ("a React or a Consume comes too early", "byte"),
    20: ("a command comes too late, or for the second time", "byte"),
    21: ("an AllocMono names a reactor that is not lower", "byte"),
    22: ("work memory is not as long as memory", "words"),
    23: ("a reactor may come to deploy itself again", "reactor"),
    24: ("the program may take more words than memory can have", "place"),
    25: ("a command is the remainder, which is withdrawn", "byte"),
}


class Refused(Exception):
    """A call that was refused: it has left memory as it was."""

    def __init__(self, number, place):
        meaning, what = WHY[number]
        super().__init__(f"refused {number}: {meaning} ({what} {place})")
        self.number, self.place = number, place


def place_of(answer):
    """The place of an answer, unless it is a refusal."""
    number, place = divmod(answer, 1 << 32)
    if number != 0:
        raise Refused(number, place)
    return place


def pack(value):
    """A reading as two words."""
    if value is None:
        return struct.pack("<Ii", BLANK, 0)
    return struct.pack("<Ii", TRUTH if isinstance(value, bool) else NUMBER, value)


def unpack(pair):
    """The value of two words."""
    mark, content = struct.unpack("<Ii", pair)
    return {BLANK: None, NUMBER: content, TRUTH: bool(content)}[mark]


def load(path):
    """The library, with the types of its calls: a slice is a pointer and a length."""
    lib = ctypes.CDLL(str(path))
    one = [ctypes.c_void_p, ctypes.c_size_t]
    on_bytes = {"compile": 2, "check": 1, "figure": 1, "start": 2, "turn": 4, "preview": 5}
    on_words = {"start_words": 2, "turn_words": 4, "preview_words": 5}
    for name, slices in {**on_bytes, **on_words}.items():
        call = getattr(lib, "remus_" + name)
        call.argtypes, call.restype = slices * one, ctypes.c_uint64
    return lib


def compiled(lib, source):
    """The program of a text in Haai."""
    output = ctypes.create_string_buffer(MOST_COMPILED)
    length = place_of(lib.remus_compile(source, len(source), output, len(output)))
    return output.raw[:length]


class Rules:
    """A program and the memory that it runs in, of so many words and so many bytes more."""

    def __init__(self, lib, program, words, spare=0):
        self.lib, self.program = lib, program
        self.memory = ctypes.create_string_buffer(b"\xee" * (WORD * words + spare), WORD * words + spare)

    def start(self):
        """Makes memory ready for the first turn; gives the words in use."""
        return place_of(self.lib.remus_start(self.program, len(self.program), self.memory, len(self.memory)))

    def turn(self, readings, sinks=1):
        """Runs one turn; gives the values of so many sinks and the words in use."""
        return self._outcome(self.lib.remus_turn, [self.memory], readings, sinks)

    def preview(self, work, readings, sinks=1):
        """Tries a turn in a work memory; gives what the turn would give."""
        return self._outcome(self.lib.remus_preview, [self.memory, work], readings, sinks)

    def _outcome(self, call, memories, readings, sinks):
        given = b"".join(map(pack, readings))
        space = ctypes.create_string_buffer(PAIR * MOST_SINKS)
        slices = [self.program, *memories, given, space]
        used = place_of(call(*[part for one in slices for part in (one, len(one))]))
        return [unpack(space.raw[PAIR * i : PAIR * (i + 1)]) for i in range(sinks)], used

    def completed(self):
        """The number of completed turns, which is word 1 of memory."""
        return struct.unpack_from("<I", self.memory, WORD)[0]


def command(code, x=0, a=0, b=0, v=0):
    """The eight bytes of a command."""
    return struct.pack("<BBBBi", code, x, a, b, v)


# The program that rig.c explains: the difference of two readings on odd turns, their sum on even ones.
TOGGLE = b"".join(
    [
        bytes([1, 2, 3, 2, 0, 0, 0, 0]),  # header: format 1, 2 shapes, 3 reactors, 2 globals
        bytes([0, 0]),  # globals 1 and 2 are numbers
        bytes([2, 1] + 14 * [0]),  # shape 0: two sources and one sink, numbers
        bytes([0, 1] + 14 * [0]),  # shape 1: no source and one sink, a number
        bytes([0, 0, 2, 0, 0, 0, 2, 0, 1, 1, 16, 0]),  # plus, minus and main: shape, D and R commands
        command(10, 0, 0, 1) + command(8, 0, 2),  # plus: add its sources; Sink
        command(10, 1, 0, 1) + command(8, 0, 2),  # minus: subtract; Sink
        command(2, 0),  # main: 0 a branch point
        command(4, 0) + command(4, 1) + command(4, 2),  # 1 the time, 2 and 3 the readings
        command(3, 0, v=2) + command(10, 3, 1, 4) + command(10, 2, 5, 4),  # 4 two, 5 half the time, 6 twice that
        command(10, 6, 6, 1),  # 7 whether that is the time, which is even then
        command(3, 2, v=0) + command(3, 2, v=1) + command(10, 11, 7, 8, 9),  # 8 plus, 9 minus, 10 one of them
        command(9, 0, 10, 0),  # 11 its deployment at branch point 0
        command(5, 0, 2, 11) + command(5, 1, 3, 11) + command(6, 0, 0, 11),  # supplied and run
        command(7, 0, 0, 11) + command(8, 0, 15),  # 15 its sink; Sink
    ]
)


# The average of three readings, in Haai.
AVERAGE = b"""(source a) (source b) (source c)
(defr (average x y z) (/ (+ (+ x y) z) 3))
(defr (main) (average a b c))
"""


def text(value):
    """A value as it is printed."""
    return "blank" if value is None else str(value).lower()


def print_start(rules):
    """Starts the program, and says what came of it."""
    print(f"start in {len(rules.memory) // WORD} words: {rules.start()} in use")


def print_turn(rules, *readings, work=None):
    """Runs a turn, or its preview if there is a work memory, and says what came of it."""
    given = " ".join(["readings", *map(text, readings)]) if readings else "no readings"
    head = f"turn {rules.completed() + 1}, {given}:"
    if work is not None:
        head = f"preview of {head}"
    try:
        sinks, used = rules.turn(readings) if work is None else rules.preview(work, readings)
        print(f"{head} sink {text(sinks[0])}, {used} words in use")
    except Refused as why:
        print(f"{head} {why}")


def run(lib, words):
    """Three turns, one with a reading missing, and one that is refused; with other readings it is tried, then made."""
    rules = Rules(lib, TOGGLE, words, spare=3)
    print_start(rules)
    for _ in range(3):
        print_turn(rules, 7, 5)
    print_turn(rules, 7, None)
    print_turn(rules)
    work = ctypes.create_string_buffer(WORD * words)
    print_turn(rules, 7, -5, work=work)
    print_turn(rules, 7, -5)
    print("memory:", "as the preview has shown" if rules.memory.raw[:-3] == work.raw else "otherwise")
    print("bytes past the last word:", "kept" if rules.memory.raw[-3:] == b"\xee\xee\xee" else "lost")


def run_short(lib, words):
    """One word less: the second turn has no room for the second deployment, however often it is tried.

    A work memory with the room for it is not taken.
    """
    rules = Rules(lib, TOGGLE, words - 1)
    print_start(rules)
    print_turn(rules, 7, 5)
    before = rules.memory.raw
    print_turn(rules, 7, 5, work=ctypes.create_string_buffer(WORD * words))
    print_turn(rules, 7, 5, work=ctypes.create_string_buffer(WORD * (words - 1)))
    print_turn(rules, 7, 5)
    print("memory:", "as before the refusals" if rules.memory.raw == before else "changed")


def run_on_words(lib, words):
    """The first three turns on the processor's own words: these lengths count words."""
    memory, sinks = (ctypes.c_uint32 * words)(), (ctypes.c_int32 * 2)()
    readings = (ctypes.c_int32 * 4)(NUMBER, 7, NUMBER, 5)
    place_of(lib.remus_start_words(TOGGLE, len(TOGGLE), memory, len(memory)))
    for turn in (1, 2, 3):
        answer = lib.remus_turn_words(TOGGLE, len(TOGGLE), memory, len(memory), readings, 4, sinks, 2)
        print(f"on words, turn {turn}: sink {sinks[1]}, {place_of(answer)} words in use")


def run_text(lib):
    """Two turns of the average, the second with a reading missing; and a text that lacks a bracket."""
    program = compiled(lib, AVERAGE)
    print(f"compile: {len(program)} bytes")
    rules = Rules(lib, program, place_of(lib.remus_figure(program, len(program))))
    rules.start()
    for turn, readings in enumerate([(10, 20, 30), (10, None, 30)], 1):
        print(f"average, turn {turn}: sink {text(rules.turn(readings)[0][0])}")
    try:
        compiled(lib, b"(defr (main) (+ 1 2)")
    except Refused as why:
        print(f"compile: {why}")


def main():
    """Prints what rig.c prints."""
    built = pathlib.Path(__file__).resolve().parent.parent / "build" / "libremus.so"
    lib = load(sys.argv[1] if len(sys.argv) > 1 else built)
    print(f"check: accepted, main has {place_of(lib.remus_check(TOGGLE, len(TOGGLE)))} words")
    words = place_of(lib.remus_figure(TOGGLE, len(TOGGLE)))
    print(f"figure: {words} words are enough")
    run(lib, words)
    run_short(lib, words)
    run_on_words(lib, words)
    run_text(lib)


if __name__ == "__main__":
    main()
