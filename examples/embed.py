"""Verifies and thins a program: python3 embed.py LIBFLEET.SO MAP SCEN PROGRAM"""
import ctypes
import sys


class Fault(ctypes.Structure):
    _fields_ = [("part", ctypes.c_uint32), ("number", ctypes.c_uint32), ("count", ctypes.c_uint64),
                ("fields", ctypes.c_uint64 * 6)]


class Accepted(ctypes.Structure):
    _fields_ = [(name, ctypes.c_uint32) for name in ("agents", "moves", "awaits", "chain")]


DONE, TOO_SMALL = 0, 2
BYTES = (ctypes.c_char_p, ctypes.c_size_t)
FAULT = (ctypes.POINTER(Fault),)


def declare(library):
    """The types of the two calls, as in fleet.h."""
    common = (*BYTES, *BYTES, ctypes.c_uint16, *BYTES)
    library.fleet_verify.argtypes = (*common, ctypes.POINTER(Accepted), *FAULT)
    library.fleet_thin.argtypes = (*common, *BYTES, ctypes.POINTER(ctypes.c_size_t), *FAULT)
    library.fleet_verify.restype = library.fleet_thin.restype = ctypes.c_uint32
    return library


def thinned(library, *given):
    """The bytes of the thinned program: the first call asks for their length."""
    length, fault, out = ctypes.c_size_t(0), Fault(), ctypes.create_string_buffer(0)
    while (status := library.fleet_thin(*given, out, len(out), length, fault)) == TOO_SMALL:
        out = ctypes.create_string_buffer(length.value)
    if status != DONE:
        raise ValueError(f"part {fault.part}, number {fault.number}, fields {list(fault.fields[:fault.count])}")
    return out.raw[:length.value]


def main(path, *names):
    library = declare(ctypes.CDLL(path))
    map_text, scen, program = (open(name, "rb").read() for name in names)
    given = (map_text, len(map_text), scen, len(scen), 0)
    for it in (program, thinned(library, *given, program, len(program))):
        accepted, fault = Accepted(), Fault()
        status = library.fleet_verify(*given, it, len(it), accepted, fault)
        print(f"status {status}: {accepted.moves} moves, {accepted.awaits} awaits, chain {accepted.chain}")


if __name__ == "__main__":
    main(*sys.argv[1:])
