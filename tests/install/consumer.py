"""Uses the shared library through ctypes and prints what consumer.c prints, but for what needs the headers.

    python3 consumer.py libeco32.so eco32.h

The numbers of the header are read from it; of the structs the fields are named here, and ctypes lays them out."""
import ctypes
import re
import sys

LIBRARY, HEADER = sys.argv[1:]
with open(HEADER) as file:
    NUMBER = {name: int(value) for name, value in re.findall(r"^#define ECO32_([A-Z_]+) (\d+)\b", file.read(), re.M)}


class Answer(ctypes.Structure):
    _fields_ = [("refusal", ctypes.c_uint32), ("steps", ctypes.c_uint32), ("eid", ctypes.c_uint32), ("slot", ctypes.c_uint32)]


class Charged(ctypes.Structure):
    _fields_ = Answer._fields_ + [("charge", ctypes.c_uint64)]


class View(ctypes.Structure):
    _fields_ = [("refusal", ctypes.c_uint32), ("slot", ctypes.c_uint32), ("offset", ctypes.c_uint64), ("length", ctypes.c_uint64)]


def call(name, result, slices, numbers=()):
    """The call of that name: each slice is a pointer and a length."""
    function = getattr(library, name)
    function.restype = result
    function.argtypes = [ctypes.POINTER(ctypes.c_uint8), ctypes.c_size_t] * slices + list(numbers)

    def lent(*arguments):
        values = []
        for argument in arguments:
            values += [argument] if isinstance(argument, int) else [argument, len(argument)]
        return function(*values)

    return lent


def buffer(length):
    return (ctypes.c_uint8 * length)()


def words(name, answer):
    print(f"{name}: " + ", ".join(f"{field} {getattr(answer, field)}" for field, _ in answer._fields_))


def hexadecimal(name, part):
    print(name, bytes(part).hex().upper())


def layout(name, struct):
    print(name, ctypes.sizeof(struct))
    for field, _ in struct._fields_:
        print(f"{name}.{field}", getattr(struct, field).offset)


library = ctypes.CDLL(LIBRARY)
run_numbers = [ctypes.c_uint64, ctypes.c_uint16]
reset = call("eco32_reset", ctypes.c_uint32, 1)
read_record = call("eco32_read_record", ctypes.c_uint32, 2)
write_record = call("eco32_write_record", ctypes.c_uint32, 2)
run = call("eco32_run", Answer, 4, run_numbers)
run_to_exception = call("eco32_run_to_exception", Answer, 4, run_numbers)
run_charged = call("eco32_run_charged", Charged, 5, run_numbers)
run_to_exception_charged = call("eco32_run_to_exception_charged", Charged, 5, run_numbers)
page_view = call("eco32_page_view", View, 2, [ctypes.c_uint64])

machine, copy = buffer(NUMBER["RECORD_LENGTH"]), buffer(NUMBER["RECORD_LENGTH"])
ram, rom, belt = buffer(2 * NUMBER["FRAME_LENGTH"]), buffer(NUMBER["ROM_LEAST"]), buffer(NUMBER["BELT_LENGTH"])
rom[:16] = bytes.fromhex("04010005 7C02C000 D4410000 B8000000")
belt[3] = 7

layout("eco32_answer", Answer)
layout("eco32_charged", Charged)
layout("eco32_view", View)
print("reset", reset(machine))
words("run", run(machine, ram, rom, belt, 3, 0))
hexadecimal("pc", machine[NUMBER["RECORD_PC"]:][:4])
hexadecimal("register 1", machine[NUMBER["RECORD_REGISTERS"] + 4:][:4])
words("to exception", run_to_exception(machine, ram, rom, belt, NUMBER["MOST_STEPS"], 0))
hexadecimal("psw", machine[NUMBER["RECORD_PSW"]:][:4])
print("write", write_record(machine, copy))
hexadecimal("record", copy)
copy[NUMBER["RECORD_TIMER_DIVISOR"] + 3] = 9
print("timed", read_record(copy, machine))
words("ticks", run(machine, ram, rom, belt, 3, 0))
hexadecimal("timer", machine[NUMBER["RECORD_KIND_TIMER"]:][:10])
print("old", read_record((ctypes.c_uint8 * NUMBER["OLD_RECORD_LENGTH"]).from_buffer(copy), machine))
hexadecimal("no timer", machine[NUMBER["RECORD_KIND_TIMER"]:][:10])
print("short", read_record((ctypes.c_uint8 * (len(copy) - 1)).from_buffer(copy), machine))
words("view", page_view(ram, machine, 0xC0001))
hexadecimal("ram", ram[:16])
hexadecimal("belt", belt[:16])
words("no view", page_view(ram, machine, 0xC0002))
entry = NUMBER["RECORD_TLB"] + 8 * 7
machine[entry:entry + 8] = bytes.fromhex("00001000 00001001")
words("mapped", page_view(ram, machine, 1))
shorter = (ctypes.c_uint8 * (len(ram) - 1)).from_buffer(ram)
words("refused", run(machine, shorter, rom, belt, 1, 0))
copy[NUMBER["RECORD_REPLACEMENT"]] = 3
print("unfit", read_record(copy, machine))
copy[NUMBER["RECORD_KIND_PC"]] = 9
print("kind", read_record(copy, machine))
charges = buffer(NUMBER["CHARGES_LENGTH"])
for index, charge in {0x01: 3, 0x1F: 261, 0x35: 20, 64: 1000}.items():
    charges[2 * index:2 * index + 2] = charge.to_bytes(2, "big")
print("reset", reset(machine))
words("charged", run_charged(machine, ram, rom, belt, charges, 3, 0))
words("charged to exception", run_to_exception_charged(machine, ram, rom, belt, charges, NUMBER["MOST_STEPS"], 0))
words("no list", run_charged(machine, ram, rom, belt, (ctypes.c_uint8 * (len(charges) - 1)).from_buffer(charges), 3, 0))
