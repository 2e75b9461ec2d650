"""The hold table of the night boat (see host.c) from Python, by ctypes: am9517.py [SHARED LIBRARY]. It prints what host.c prints.

The structs are those of am9517.h, field by field; any other language that can call C takes the same steps."""
import ctypes
import sys
from ctypes import POINTER, byref, c_char_p, c_size_t, c_uint8, c_uint16, c_uint32, c_uint64


def struct(name, fields):
    return type(name, (ctypes.Structure,), {"_fields_": fields})


NAMES = "tc request mask pins in_service serving latch_full latch lowest flip_flop edition temporary command waits"
AM9517A, INTEL_8237A = 0, 1  # editions
REASONS = "refused ended dropped cascade limit short done quiet".split()
Channel = struct("Channel", [*((n, c_uint16) for n in ("base_address", "address", "base_count", "count")), ("mode", c_uint8)])
Chip = struct("Chip", [("channels", Channel * 4), *((n, c_uint8) for n in NAMES.split())])
Told = struct("Told", [("refusal", c_uint32), ("value", c_uint32)])
Ran = struct("Ran", [("refusal", c_uint32), ("reason", c_uint32), ("transfers", c_uint64), ("used", c_size_t), ("written", c_size_t), ("states", c_uint64)])
AREA = [c_char_p, c_size_t]
CALLS = {"version": (c_uint32, []), "fresh": (Chip, [c_uint32]), "write": (c_uint32, [POINTER(Chip), c_uint32, c_uint8]),
         "pins": (c_uint32, [POINTER(Chip), c_uint32]), "waits": (c_uint32, [POINTER(Chip), c_uint8]),
         "grant": (Told, [POINTER(Chip)]), "status": (Told, [POINTER(Chip)]),
         "run": (Ran, [POINTER(Chip), *AREA, *AREA, *AREA, c_uint64, c_uint64]),
         "save2": (c_uint32, [POINTER(Chip), *AREA]), "load2": (c_uint32, [POINTER(Chip), *AREA]),
         "forward": (c_uint32, [*AREA, *AREA]), "back": (c_uint32, [*AREA, *AREA])}
SHEET, SHEET2 = 56, 58  # bytes of a sheet of form 1, and of form 2


def ok(refusal):
    if refusal:
        raise SystemExit("refused %d" % refusal)


def kept(call, chip):
    """The chip as an archive gives it back: stored in form 2, lent to an old reader in form 1, and taken up in form 2 again."""
    other, new, old = call["fresh"](INTEL_8237A), ctypes.create_string_buffer(SHEET2), ctypes.create_string_buffer(SHEET)
    ok(call["save2"](byref(chip), new, SHEET2))
    ok(call["back"](new, SHEET2, old, SHEET))
    ctypes.memset(new, 0, SHEET2)
    ok(call["forward"](old, SHEET, new, SHEET2))
    ok(call["load2"](byref(other), new, SHEET2))
    return other


def main(path="libam9517.so.4"):
    library = ctypes.CDLL(path)
    call = {name: ctypes.CFUNCTYPE(result, *arguments)(("am9517_" + name, library)) for name, (result, arguments) in CALLS.items()}
    if call["version"]() // 10000 != 4:
        raise SystemExit("%s is of another major version" % path)
    assert ctypes.sizeof(Chip) == 54 and Chip.command.offset == 52 and Chip.waits.offset == 53
    chip, memory, holds = call["fresh"](AM9517A), ctypes.create_string_buffer(65536), bytes([1, 1, 0, 1, 1, 0, 0, 1, 1, 0, 1, 0xA7])
    ok(call["waits"](byref(chip), 0))  # memory cards that hold no transfer
    for register, byte in [(0xD, 0), (0xB, 0x85), (0xC, 0), (2, 0), (2, 2), (3, 11), (3, 0), (0xA, 1)]:
        ok(call["write"](byref(chip), register, byte))
    ok(call["pins"](byref(chip), 2))
    grant = call["grant"](byref(chip))
    ok(grant.refusal)
    run = call["run"](byref(chip), memory, len(memory), holds, len(holds), None, 0, 65536, 0)
    ok(run.refusal)
    chip = kept(call, chip)
    print("channel", grant.value)
    print(f"{REASONS[run.reason]} transfers={run.transfers} used={run.used} states={run.states}")
    print("memory at 0200h:", memory.raw[0x200:0x20C].hex(" "))
    print(f"count of channel 1 {chip.channels[1].count:04x}, status {call['status'](byref(chip)).value:02x}")


if __name__ == "__main__":
    main(*sys.argv[1:2])
