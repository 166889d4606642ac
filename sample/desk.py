"""The permit desk from Python, by ctypes: a book for sixteen agents, a permit issued to a ship and read back. Usage: desk.py [LIBRARY]"""
import sys
from ctypes import CDLL, POINTER, Structure, c_char, c_char_p, c_size_t, c_uint16, c_uint32, c_uint64

library = CDLL(sys.argv[1] if len(sys.argv) > 1 else "liblambukir.so.0.14")

# Slices, each a pointer and a length. Where the header says const, bytes may be lent as they are; where a call writes, a bytearray, by lend().
CONST, OUT, QUOTAS = (c_char_p, c_size_t), (POINTER(c_char), c_size_t), (POINTER(c_uint16), c_size_t)
BOOK_SIZE, USER_PERMIT_SIZE, LINE_SIZE, TENANTS = 14437, 28, 76, 16


class Text(Structure):
    _fields_ = [("text", c_char * 64)]


class Written(Structure):
    _fields_ = [("length", c_uint64), ("number", c_uint32)]


class Edition(Structure):
    _fields_ = [("edition", c_uint32), ("number", c_uint32)]


class Held(Structure):
    _fields_ = [("held", c_uint32), ("number", c_uint32)]


class Line(Structure):
    _fields_ = [(field, c_uint64) for field in ("name", "key_one", "key_two")] + [
        (field, c_uint32) for field in ("expiry", "level", "edition", "server", "number")]


def declared(name, answer, *arguments):
    """A function of the library, with the types that the header gives it: without them ctypes would cut its numbers to 32 bits."""
    function = getattr(library, "lambukir_" + name)
    function.restype, function.argtypes = answer, arguments
    return function


meaning_of = declared("meaning", Text, c_uint32)
name_from_text = declared("name_from_text", c_uint64, *CONST)
hw_id_from_text = declared("hw_id_from_text", c_uint64, *CONST)
code_from_text = declared("code_from_text", c_uint32, *CONST)
make_user_permit = declared("make_user_permit", c_uint32, *CONST, c_uint64, c_uint32, *OUT)
open_book = declared("open_book", c_uint32, *OUT, *QUOTAS, *CONST, *CONST)
enter = declared("enter", c_uint32, *OUT, c_uint32, c_uint64, c_uint32, c_uint64, c_uint64, c_uint32)
ask_edition = declared("ask_edition", Edition, *CONST, c_uint32, c_uint64)
ask_producer = declared("ask_producer", Held, *CONST, c_uint32, c_uint32)
issue = declared("issue", Written, *CONST, *CONST, c_uint32, c_uint64, c_uint32, c_uint32, *CONST, *OUT)
check = declared("check", Line, *CONST, c_uint32, c_uint64, c_uint32, *CONST)


def lend(buffer):
    """The bytes of a bytearray themselves, not a copy of them, as the two arguments of a slice."""
    return (c_char * len(buffer)).from_buffer(buffer), len(buffer)


def meaning(number):
    return f"{number}, {meaning_of(number).text.decode()}"


OSLO, HAMBURG = 0, 1  # two of the sixteen agents, by their numbers in the book
TODAY, EXPIRY = 20240131, 20240331
NONE = 0  # no last expiry: a cell that may be sold for any time
REGISTER = b"0198765"  # who makes bridge equipment: manufacturer 01 has the key 98765
cell, ship = name_from_text(b"NO4D0613", 8), hw_id_from_text(b"12348", 5)

book = bytearray(BOOK_SIZE)  # a service keeps this in a file, see lambukir.h
quotas = (c_uint16 * TENANTS)(100, 2, *[25] * 14)
ids = b"NODEA2A3A4A5A6A7A8A9B0B1B2B3B4B5"
principals = bytes(TENANTS)  # nobody is a branch
print("A book is opened for sixteen agents:", meaning(open_book(*lend(book), quotas, TENANTS, ids, len(ids), principals, TENANTS)))
print("Oslo enters NO4D0613, edition 10:", meaning(enter(*lend(book), OSLO, cell, 10, 0xC1CB518E9C, 0x421571CC66, NONE)))

permit = bytearray(USER_PERMIT_SIZE)
made = make_user_permit(REGISTER, len(REGISTER), ship, code_from_text(b"01", 2), *lend(permit))
if made != 0:
    sys.exit("There is no user permit: " + meaning(made))
print("The ship's user permit is", permit.decode())

room = bytearray(LINE_SIZE)
written = issue(*lend(book), REGISTER, len(REGISTER), OSLO, cell, EXPIRY, 0, *lend(permit), *lend(room))
print(f"Oslo issues NO4D0613 until {EXPIRY}:", meaning(written.number))
if written.number != 0:
    sys.exit(1)
line = bytes(room[:written.length - 2])  # a line is checked without its CR LF
print(" ", line.decode())

read = check(*lend(book), OSLO, ship, TODAY, line, len(line))
notice = "0, current" if read.number == 0 else meaning(read.number)
print(f"Oslo checks it on {TODAY}: {notice}; edition {read.edition}, keys {read.key_one:010X} and {read.key_two:010X}")

for agent, tenant in ("Oslo", OSLO), ("Hamburg", HAMBURG):
    held = ask_edition(*lend(book), tenant, cell)
    print(f"{agent} asks for its edition of NO4D0613:", held.edition if held.number == 0 else meaning(held.number))
    any_of = ask_producer(*lend(book), tenant, code_from_text(b"NO", 2))
    print(f"{agent} asks whether it holds any cell of NO:", ("yes" if any_of.held else "no") if any_of.number == 0 else meaning(any_of.number))
