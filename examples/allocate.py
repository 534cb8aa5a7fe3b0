"""The bit allocation of one frame through ctypes, printed as a table.

The signal-to-mask ratios are made up: they fall from 30 dB in subband 0, the second channel 6 dB below the first.

    python3 examples/allocate.py [PATH OF libfolgrist_mp2.so]

examples/allocate_py.sh builds the shared library and runs this.
"""

import ctypes
import os
import sys

ANSWERS = {
    1: "no allocation table covers the header's rates",
    2: "the sample rate is 0",
    4: "the fixed and ancillary bits are more than the frame has",
    5: "no class of quantization has so many steps",
    14: "an argument is out of its range",
    16: "the bit rate is not one that the header can name",
    97: "there is nothing at that place",
    98: "an array is too short",
}
TABLES = ["3-B.2a", "3-B.2b", "3-B.2c", "3-B.2d", "B.1 (LSF)"]

U8, U32, U64, I64 = ctypes.c_uint8, ctypes.c_uint32, ctypes.c_uint64, ctypes.c_int64
DOUBLE, SIZE = ctypes.c_double, ctypes.c_size_t
HEADER = [U8, U32, U32, U8, U8, U8, U8]


def slice_of(kind):
    """An array is two arguments: a pointer and a length."""
    return [ctypes.POINTER(kind), SIZE]


SIGNATURES = {
    "frame_size_bytes": HEADER + slice_of(U64),
    "fixed_bit_budget": HEADER + slice_of(U32),
    "available_data_bits": HEADER + [U32] + slice_of(I64),
    "demand_bits": HEADER + slice_of(DOUBLE) + slice_of(U64),
    "allocate_bits": HEADER + [U32] + slice_of(DOUBLE) + slice_of(U32) + slice_of(U32),
}


class Refused(Exception):
    """A call was answered by a number that is not 0."""


def load(path):
    if not os.path.exists(path):
        sys.exit(f"{path} is not there: bash examples/allocate_py.sh builds it")
    library = ctypes.CDLL(path)
    for name, arguments in SIGNATURES.items():
        function = getattr(library, "folgrist_" + name)
        function.argtypes = arguments
        function.restype = U32
    return library


def call(library, name, *arguments):
    """Calls a function; each array is passed as its pointer and its length."""
    flat = []
    for argument in arguments:
        flat += [argument, len(argument)] if isinstance(argument, ctypes.Array) else [argument]
    number = getattr(library, "folgrist_" + name)(*flat)
    if number != 0:
        raise Refused(f"{name}: answer {number}: {ANSWERS.get(number, 'unknown')}")


def main():
    here = os.path.dirname(os.path.abspath(__file__))
    library = load(sys.argv[1] if len(sys.argv) > 1 else os.path.join(here, "..", "target", "libfolgrist_mp2.so"))
    # lsf, bit rate, sample rate, padding, protection bit (1: no CRC), mode (1: joint stereo), extension (1: from subband 8)
    header = (0, 192000, 48000, 0, 1, 1, 1)
    banc = 0
    smr_db = (DOUBLE * 64)(*[30.0 - 1.5 * sb for sb in range(32)], *[24.0 - 1.5 * sb for sb in range(32)])
    size, demand, offered = (U64 * 1)(), (U64 * 1)(), (I64 * 1)()
    budget, steps, out = (U32 * 8)(), (U32 * 64)(), (U32 * 4)()
    call(library, "frame_size_bytes", *header, size)
    call(library, "fixed_bit_budget", *header, budget)
    call(library, "available_data_bits", *header, banc, offered)
    call(library, "demand_bits", *header, smr_db, demand)
    call(library, "allocate_bits", *header, banc, smr_db, steps, out)

    cb, bhdr, bcrc, bbal, sblimit, bound, channels, table = budget
    print(f"header         {header[1]} bit/s, {header[2]} Hz, joint stereo from subband {bound}, no CRC")
    print(f"table          {TABLES[table]}, {sblimit} subbands, {channels} channels")
    print(f"frame          {size[0]} bytes, {cb} bits, of which {bhdr + bcrc + bbal} are fixed")
    print(f"offered        {offered[0]} bits")
    print(f"demand         {demand[0]} bits")
    print(f"left           {out[0]} bits")
    print("\nsubband" + "".join(f"   SMR {ch} dB   steps" for ch in range(channels)))
    for sb in range(sblimit):
        print(f"{sb:7}" + "".join(f"{smr_db[32 * ch + sb]:11.1f}{steps[32 * ch + sb]:8}" for ch in range(channels)))


if __name__ == "__main__":
    try:
        main()
    except Refused as refusal:
        sys.exit(str(refusal))
