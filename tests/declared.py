"""What sample/desk.py declares is what the header declares: sizes, structs, and the types of each function that it calls. Nobody else looks at that:
ctypes makes a call with too few arguments all the same. Usage: declared.py HEADER SAMPLE LIBRARY"""
import contextlib
import ctypes
import io
import re
import runpy
import sys

with open(sys.argv[1]) as file:
    header = re.sub(r"/\*.*?\*/", "", file.read(), flags=re.DOTALL)
sys.argv = sys.argv[2:]
with contextlib.redirect_stdout(io.StringIO()):
    sample = runpy.run_path(sys.argv[0])

# how the sample has the types of C; its structs have the header's names, but Written for lambukir_written
types = {"char": ctypes.c_char, "size_t": ctypes.c_size_t, "uint32_t": ctypes.c_uint32, "uint64_t": ctypes.c_uint64,
         "uint8_t *": ctypes.POINTER(ctypes.c_char), "const uint8_t *": ctypes.c_char_p, "const char *": ctypes.c_char_p,
         "const uint16_t *": ctypes.POINTER(ctypes.c_uint16)}
declared, expected = {}, {}

sizes = {name: int(size) for name, size in re.findall(r"^#define LAMBUKIR_(\w+) (\d+) *$", header, re.MULTILINE)}
for name in sizes.keys() & sample.keys():
    declared[name], expected[name] = sample[name], sizes[name]

for body, name in re.findall(r"typedef struct \{(.*?)\} (lambukir_\w+);", header, re.DOTALL):
    types[name] = struct = sample.get(name.removeprefix("lambukir_").capitalize())
    if struct:
        fields = re.findall(r"(\w+) (\w+)(?:\[LAMBUKIR_(\w+)\])?;", body)
        declared[name] = struct._fields_
        expected[name] = [(field, types[kind] * sizes[size] if size else types[kind]) for kind, field, size in fields]

called = {value.__name__: value for value in sample.values() if isinstance(value, ctypes._CFuncPtr)}
for answer, name, arguments in re.findall(r"^(\w+)\n(lambukir_\w+)\((.*?)\);", header, re.DOTALL | re.MULTILINE):
    if name in called:
        declared[name] = [called[name].restype, *called[name].argtypes]
        expected[name] = [types[answer]] + [types[re.sub(r"\w+$", "", argument).strip()] for argument in re.split(r",\s+", arguments)]

wrong = [name for name in declared if declared[name] != expected[name]] + [name for name in called if name not in declared]
for name in wrong:
    print(f"{name}\n  the sample: {declared.get(name)}\n  the header: {expected.get(name)}")
print(f"{len(declared)} sizes, structs and functions compared, {len(wrong)} wrong")
sys.exit(1 if wrong or len(declared) < 10 else 0)
