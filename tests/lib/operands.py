"""Reads the operands in memory of instructions of x86-64 from a disassembly by objdump."""
import re
from typing import NamedTuple

# The registers in the order of a signal frame.
REGISTERS = "r8 r9 r10 r11 r12 r13 r14 r15 rdi rsi rbp rbx rdx rax rcx rsp".split()
NO_REGISTER = 255
OPERAND = re.compile(r"(-?0x[0-9a-f]+)?\((%\w+)?(?:,(%\w+),([1248]))?\)")


class Operand(NamedTuple):
    """An address: displacement + base + index * scale. Each register is a number, NO_REGISTER for none."""

    displacement: int
    base: int
    index: int
    scale: int


def operand_of(text):
    """Returns the operand in memory of an instruction, or None if it has none whose address depends only on REGISTERS. If it has
    two, the operand is the first one."""
    found = OPERAND.search(text)
    if not found or not (found[2] or found[3]) or found[2] == "%rip" or "%fs:" in text or text.startswith("lea") or "nop" in text:
        return None
    number = lambda name: REGISTERS.index(name[1:]) if name else NO_REGISTER
    try:
        return Operand(int(found[1] or "0", 16), number(found[2]), number(found[3]), int(found[4] or 1))
    except ValueError:
        return None


# How many bytes instructions load and store at their operand in memory.
SUFFIXES = {"b": 1, "w": 2, "l": 4, "q": 8}
# Instructions whose operands have one size, by the suffix or by a register: those that only load from memory, also as the last
# operand; those that only store there if it is the last operand; and those that then load and store.
ONLY_LOAD = {"cmp", "test", "bt", "push", "imul", "mul", "div", "idiv", "popcnt", "tzcnt", "lzcnt", "bsf", "bsr"}
STORE = {"mov"}
CHANGE = {"add", "sub", "and", "or", "xor", "adc", "sbb", "inc", "dec", "neg", "not", "shl", "shr", "sar", "rol", "ror", "xchg",
          "btr", "bts", "btc"}
# Instructions on xmm registers that load or store fewer than 16 bytes.
NARROW = {"movq": 8, "movd": 4, "movss": 4, "movsd": 8, "movlps": 8, "movhps": 8, "movlpd": 8, "movhpd": 8, "pinsrb": 1, "pinsrw": 2,
          "pinsrd": 4, "pinsrq": 8, "pextrb": 1, "pextrw": 2, "pextrd": 4, "pextrq": 8, "pmovzxbw": 8, "pmovzxbd": 4,
          "pmovzxbq": 2, "pmovzxwd": 8, "pmovzxwq": 4, "pmovzxdq": 8, "pmovsxbw": 8, "pmovsxwd": 8, "pmovsxdq": 8, "movddup": 8}
EXTENDS = re.compile(r"mov[zs]([bwl])[wlq]$")


def bytes_of_register(name):
    if name.startswith("%xmm"):
        return 16
    if name.endswith("b") or name in ("%al", "%bl", "%cl", "%dl", "%ah", "%bh", "%ch", "%dh", "%sil", "%dil", "%bpl", "%spl"):
        return 1
    if re.fullmatch(r"%e\w\w|%r\d+d", name):
        return 4
    return 8 if name.startswith("%r") and not name.endswith("w") else 2


def touched(text):
    """Returns how many bytes an instruction loads and how many it stores at its operand in memory. Fails with ValueError for an
    instruction that it does not know."""
    name, _, rest = text.removeprefix("lock ").removeprefix("notrack ").partition(" ")
    others = re.findall(r"%\w+", re.sub(r"\([^)]*\)", "", rest))
    is_last = re.search(r"\)(\s|$)", rest) is not None
    base = name if name in ONLY_LOAD | STORE | CHANGE else name[:-1]
    if found := EXTENDS.match(name):
        return SUFFIXES[found[1]], 0
    if name in ("call", "jmp"):
        return 8, 0
    if "%xmm" in rest:
        count = NARROW.get(name, 16)
        return (0, count) if is_last else (count, 0)
    if name.startswith("set"):
        return 0, 1
    if name.startswith("cmov"):
        return bytes_of_register(others[-1]), 0
    if base not in ONLY_LOAD | STORE | CHANGE:
        raise ValueError(f"unknown instruction: {text}")
    count = SUFFIXES[name[-1]] if base != name else bytes_of_register(others[0]) if others else 8
    if base in ONLY_LOAD or not is_last:
        return count, 0
    return (0 if base in STORE else count), count
