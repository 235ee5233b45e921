"""Reads crates/partmem_c/partmem.h, and four functions that memory.c declares, and the exports, structs and constants of the
crate's source.

Fails if the header has text that is not compared, or if an export or a struct of the source was not read."""
import functools
import glob
import os
import re

from checks import TOP, fail

LIMITS = "FRAME_BYTES MIN_ORDER MAX_CACHES MAX_PATTERN MAX_BYTES".split()
# Limits of a machine. The library has those of a wide machine, which the source names WIDE_ORDER and so on.
WIDE = "ORDER SUPERBLOCKS FRAMES TENANTS".split()
# Maps types of Rust to types of C.
TYPES = {"u16": "uint16_t", "u32": "uint32_t", "usize": "size_t", "bool": "uint32_t", "*mut u8": "void *"}
# Maps names of fields in Rust to other names in C.
FIELDS = {"usage": "use"}
# A parameter of type partmem_tenant in the header is these two parameters in the source.
TENANT = [("machine", "partmem_machine *"), ("tenant", "uint32_t")]
IN_C = ["partmem_" + name for name in "strerror version boot boot_in end superblock_address find_place".split()]
# Exports that return a number instead of a status.
NUMBERS = ["partmem_superblock_bytes", "partmem_slot_in_kernel", "partmem_release_in_kernel"]
ENUM = re.compile(r"(?:typedef )?enum (?:\w+ )?\{([^{}]*)\}(?: (\w+))?;")
STRUCT = re.compile(r"typedef struct (\w+) \{([^{}]*)\} (\w+);")
FUNCTION = re.compile(r"(?:PARTMEM_CHECKED )?(partmem_status|uint32_t|void \*|const char \*) ?(\w+)\(([^()]*)\);")
INLINE = re.compile(r"PARTMEM_INLINE [\w *]+\([^()]*\) \{[^{}]*\}")
DECLARED = re.compile(r"((?:const )?\w+(?: \*)?) ?(\w+)(\[[\w +]+\])?")


def read(path, comments):
    with open(os.path.join(TOP, path), encoding="utf-8") as file:
        return re.sub(comments, " ", file.read(), flags=re.S)


header = read("crates/partmem_c/partmem.h", r"/\*.*?\*/")
in_memory = " ".join(read("crates/partmem_c/memory.c", r"/\*.*?\*/").split())
sources = {path: read(path, r"//[^\n]*") for path in glob.glob(f"{TOP}/crates/partmem_c/src/*.rt")}
source = "\n".join(sources.values())


def declared(text):
    """Returns the name and the type in a C declaration."""
    found = DECLARED.fullmatch(" ".join(text.split()))
    return (found[2], found[1] + (found[3] or "")) if found else fail(f"not read: {text!r}")


@functools.cache
def parts_of_header():
    """Returns the macros, enums, structs and functions of the header. Fails if it has anything else, apart from preprocessor
    lines and inline functions."""
    macros = re.findall(r"^#define PARTMEM_(\w+) (\w+?)u\b", header, re.M)
    text = " ".join(line for line in header.replace("\\\n", " ").splitlines() if not line.startswith("#"))
    text = INLINE.sub(" ", " ".join(text.split()))
    rest = " ".join(FUNCTION.sub("", STRUCT.sub("", ENUM.sub("", text))).split())
    if rest != 'extern "C" { }':
        fail(f"it has text that is not compared: {rest}")
    return macros, ENUM.findall(text), STRUCT.findall(text), FUNCTION.findall(text)


def constants(text):
    return re.findall(r"PARTMEM_(\w+) = (\w+)", text)


# Maps names of structs in Rust to names in the header. exports_of_source adds the structs of parameters, because a parameter
# has the same position in the source and in the header. structs_of_source adds the structs of table rows.
names = {"MachineStorage": "partmem_machine"}


def of_rust(text):
    """Returns the C type for a type of Rust."""
    array = re.fullmatch(r"\[(\w+); (\w+)\]", text)
    if array:
        return f"{of_rust(array[1])}[{array[2]}]"
    pointer = re.fullmatch(r"&(mut )?(\w+)", text)
    if pointer:
        return ("" if pointer[1] else "const ") + of_rust(pointer[2]) + " *"
    return TYPES.get(text) or names.get(text) or fail(f"no type of the header: {text}")


def exports_of_header(found):
    for result, name, parameters in found:
        if name in IN_C:
            continue
        if result != ("uint32_t" if name in NUMBERS else "partmem_status"):
            fail(f"{name} returns {result}")
        flat = []
        for parameter, kind in map(declared, parameters.split(",")):
            flat += TENANT if kind == "partmem_tenant" else [(parameter, kind)]
        yield name, flat


def exports_of_source(in_header):
    """Yields the exports of the source, with C types. A slice becomes a pointer to bytes or text, followed by a length."""
    exports = re.findall(r'#\[unsafe\(no_mangle\)\]\s*pub extern "C" fn (\w+)\((.*?)\)\s*->\s*u32', source, re.S)
    marks = len(re.findall(r"no_mangle|export_name", source))
    if not marks == source.count("extern") == len(exports):
        fail(f"not every export of the source was read: {len(exports)} of {marks}")
    for name, parameters in exports:
        theirs, flat = in_header.get(name, []), []
        for part in filter(None, (part.strip() for part in parameters.split(","))):
            parameter, kind = part.split(": ", 1)
            if kind == "Global":
                continue
            at = theirs[len(flat):len(flat) + 2]
            item = re.fullmatch(r"&(mut )?\[u8\]", kind)
            if item:
                kinds = [("" if item[1] else "const ") + of + " *" for of in ("void", "char")]
                flat.append((parameter, at[0][1] if at and at[0][1] in kinds else kinds[0]))
                flat.append((at[1][0] if len(at) > 1 else "", "size_t"))
                continue
            struct = re.fullmatch(r"&(?:mut )?([A-Z]\w+)", kind)
            if struct and at and struct[1] not in names:
                names[struct[1]] = at[0][1].removeprefix("const ").removesuffix(" *")
            flat.append((parameter, of_rust(kind)))
        yield name, flat


def structs_of_header(found):
    for tag, fields, name in found:
        if tag != name:
            fail(f"struct {tag} is named {name}")
        yield name, [declared(field) for field in fields.split(";")[:-1]]


def structs_of_source(in_header):
    """Yields the structs of the source, except MachineStorage and Slot, whose fields the header does not show."""
    found = re.findall(r"#\[repr\(C\)\]\s*(?:#\[[^\]]*\]\s*)*pub struct (\w+) \{(.*?)\n\}", source, re.S)
    if len(found) != source.count("repr("):
        fail(f"the source has {source.count('repr(')} structs for C, of which {len(found)} were read")
    read_of = {}
    for name, fields in found:
        lines = [line.strip().rstrip(",").removeprefix("pub ") for line in fields.splitlines()]
        pairs = [line.split(": ", 1) for line in lines if line and not line.startswith("ghost")]
        read_of[name] = [(FIELDS.get(field, field), kind) for field, kind in pairs]
    if [read_of.pop("MachineStorage"), read_of.pop("KernelCell")] != [[("is_booted", "bool"), ("cell", "KernelCell")], [("at", "*mut u8")]]:
        fail("MachineStorage or KernelCell has other fields than this test expects")
    # The struct of a table's row is not the type of a parameter. Its C name is the type of the elements of the table's array.
    for name, fields in read_of.items():
        for field, kind in fields:
            row = re.fullmatch(r"\[([A-Z]\w+); \w+\]", kind)
            if row:
                names[row[1]] = dict(in_header.get(names[name], [])).get(field, "").split("[")[0]
    for name, fields in read_of.items():
        yield names.get(name) or fail(f"no struct of the header: {name}"), [(field, of_rust(kind)) for field, kind in fields]


def plain(found, limits):
    """Yields the structs with numbers as the lengths of arrays, and with integers instead of enums."""
    for name, fields in found.items():
        kinds = [re.sub(r"\[(.*)\]", lambda found: f"[{length(found[1], limits)}]", kind) for _, kind in fields]
        yield name, [(field, kind.replace("partmem_use", "uint32_t")) for (field, _), kind in zip(fields, kinds)]


def length(text, limits):
    """Returns the length of an array, which is a sum of numbers, limits, and constants of the source that follow from limits."""
    names = {"ORDERS": limits["MAX_ORDER"] + 1, "CACHES": limits["MAX_CACHES"], **limits}
    return sum(int(names.get(part.removeprefix("PARTMEM_"), part)) for part in text.split(" + "))


def snake(name):
    return re.sub(r"(?<!^)([A-Z])", r"_\1", name).upper()


def numbers_of_source():
    """Yields the names and values of the constants of the source: statuses, kinds, uses and limits."""
    for path, text in sources.items():
        for name, number in re.findall(r"pub const (\w+): u32 = (\d+|u32::MAX);", text):
            yield name, 2 ** 32 - 1 if number == "u32::MAX" else int(number)
    refusals = re.search(r"pub enum Refusal \{(.*?)\n\}", read("crates/words_core/src/reply.rt", r"//[^\n]*"), re.S)[1]
    for number, name in enumerate(re.findall(r"(\w+)(?: = 1)?,", refusals), 1):
        yield snake(name), number
    limits = dict(re.findall(r"pub const (\w+): \w+ = ([\d_]+);", read("crates/model_core/src/limits.rt", r"//[^\n]*")))
    row = re.search(r"const MAX_REPLY_BYTES: \w+ = (\d+);", read("crates/words_core/src/text.rt", r"//[^\n]*"))[1]
    for name in LIMITS:
        yield name, int(limits[name])
    for name in WIDE:
        yield f"MAX_{name}", int(limits[f"WIDE_{name}"])
    yield "LINE_BUFFER_BYTES", (1 + int(limits["MAX_SUPERBLOCKS"])) * int(row)


def by_name(what, pairs):
    """Returns the pairs as a dictionary. Fails if a name occurs twice."""
    pairs = list(pairs)
    if len(pairs) != len(dict(pairs)):
        fail(f"the name of a {what} occurs twice")
    return dict(pairs)


# Constants that only C has: the version, the number that is no place, two that make the enums 32 bits wide, and the statuses that
# only functions in C return.
OF_C = {"VERSION": 30000, "NO_PLACE": 2 ** 32 - 1, "STATUS_BITS": 2 ** 31 - 1, "USE_BITS": 2 ** 31 - 1, "BAD_MEMORY": 35,
        "NOT_HELD": 38}


@functools.cache
def numbers():
    """Returns the constants of the header, without those that only C has, and those of the source."""
    macros, enums, _, _ = parts_of_header()
    pairs = macros + [pair for text, _ in enums for pair in constants(text)]
    found = by_name("number", [(name, int(number, 0)) for name, number in pairs])
    for name, number in OF_C.items():
        if found.pop(name, None) != number:
            fail(f"PARTMEM_{name} is not {number}")
    return found, by_name("number", numbers_of_source())


@functools.cache
def functions():
    """Returns the functions of the header and of the source, with their parameters."""
    of_kernel = [it for it in FUNCTION.findall(in_memory) if it[1].endswith("_kernel")]
    exports = by_name("function", exports_of_header(parts_of_header()[3] + of_kernel))
    return exports, by_name("function", exports_of_source(exports))


@functools.cache
def structs():
    """Returns the structs of the header and of the source, with their fields."""
    functions()     # names the structs of parameters
    in_header = by_name("struct", structs_of_header(parts_of_header()[2]))
    if in_header.pop("partmem_machine", None) != [("held", "void *[3]")] or \
            in_header.pop("partmem_tenant", None) != [("machine", "partmem_machine *"), ("number", "uint32_t")] or \
            in_header.pop("partmem_memory", None) != [("ram", "void *"), ("tables", "void *")]:
        fail("partmem_machine, partmem_tenant or partmem_memory has other fields than this test expects")
    in_source = by_name("struct", structs_of_source(in_header))
    limits = numbers()[1]
    return dict(plain(in_header, limits)), dict(plain(in_source, limits))


KINDS = {"functions": functions, "structs": structs, "numbers": numbers}
