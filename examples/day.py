"""Sums the readings of a 25-hour day with a calculation block, as day.c does.

From the project's folder, after `tools/staticlib`:
  cc -shared -o target/libsangolid.so -Wl,--whole-archive target/staticlib/libsangolid.a -Wl,--no-whole-archive
  python3 examples/day.py | diff - examples/day.expected
"""

import ctypes
import pathlib
import struct
import sys

LIBRARY = pathlib.Path(__file__).resolve().parent.parent / "target" / "libsangolid.so"

CODE_BASE = 0x00010000  # where the code lies
DATA_BASE = 0x00100000  # where the data lies
HOME = 0xFFFF0000  # where a block returns to when it has ended
NO_FLAGS = 0x0002  # a flags word: bit 1 is always set
BUDGET = 1000  # most steps: far more than a day needs, and a block that never ends is stopped

# The block: ESI points at the readings, ECX is their count, EAX becomes their sum modulo 2^32.
BLOCK = bytes.fromhex(
    "31 C0"  # 0:       XOR  EAX, EAX
    "03 06"  # 2: next: ADD  EAX, [ESI]
    "83 C6 04"  # 4:       ADD  ESI, 4
    "E2 F9"  # 7:       LOOP next
    "C3"  # 9:       RET
)

# The readings of the hours; a report generator takes them from its archive.
READINGS = [1000 + 17 * hour for hour in range(25)]


class State(ctypes.Structure):
    """The state's 20 words by name, as sangolid_state in include/sangolid.h."""

    _fields_ = [
        (name, ctypes.c_uint32)
        for name in (
            "eax ecx edx ebx esp ebp esi edi eip flags"
            " xmm0 xmm1 xmm2 xmm3 xmm4 xmm5 xmm6 xmm7 steps address"
        ).split()
    ]


def load(path):
    """The library, with the declarations of include/sangolid.h."""
    library = ctypes.CDLL(str(path))
    library.sangolid_check.restype = ctypes.c_uint32
    library.sangolid_check.argtypes = [
        ctypes.c_char_p,
        ctypes.c_size_t,
        ctypes.POINTER(ctypes.c_uint8),
        ctypes.c_size_t,
        ctypes.POINTER(ctypes.c_uint32),
        ctypes.c_size_t,
    ]
    library.sangolid_run.restype = ctypes.c_uint32
    library.sangolid_run.argtypes = [
        ctypes.POINTER(State),
        ctypes.c_size_t,
        ctypes.c_char_p,
        ctypes.c_size_t,
        ctypes.c_char_p,
        ctypes.c_size_t,
        ctypes.POINTER(ctypes.c_uint8),
        ctypes.c_size_t,
        ctypes.c_uint64,
    ]
    return library


def check_block(library):
    """Checks the block and prints the verdict; tells whether the block was accepted."""
    marks = (ctypes.c_uint8 * len(BLOCK))()
    answer = ctypes.c_uint32()
    number = library.sangolid_check(BLOCK, len(BLOCK), marks, len(marks), ctypes.byref(answer), 1)
    if number == 0:
        print(f"check: accepted, {answer.value} instructions")
    else:
        print(f"check: refused, number {number} at offset {answer.value}")
    return number == 0


def run_block(library):
    """Runs the block, which has no constants, on the day's readings and prints the result; tells whether the block ended by itself."""
    stack_at = 4 * len(READINGS)  # the stack is the word behind the readings, and holds home for the block's RET
    words = struct.pack(f"<{len(READINGS) + 1}I", *READINGS, HOME)
    area = (ctypes.c_uint8 * len(words)).from_buffer_copy(words)
    state = State(
        ecx=len(READINGS), esi=DATA_BASE, esp=DATA_BASE + stack_at, eip=CODE_BASE, flags=NO_FLAGS
    )
    state_words = ctypes.sizeof(State) // ctypes.sizeof(ctypes.c_uint32)
    number = library.sangolid_run(
        ctypes.byref(state), state_words, BLOCK, len(BLOCK), None, 0, area, len(area), BUDGET
    )
    if number != 1:
        # EAX is no sum now: it must not get into the report.
        print(f"run: number {number} at {state.address:08X}h")
        return False
    print(f"readings: {len(READINGS)}")
    print(f"sum: {state.eax}")
    print(f"steps: {state.steps}")
    return True


if __name__ == "__main__":
    sangolid = load(LIBRARY)
    sys.exit(0 if check_block(sangolid) and run_block(sangolid) else 1)
