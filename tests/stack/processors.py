"""What tests/stack/run has to know of each processor: how a disassembly shows calls and jumps, and what moves the stack pointer.

An instruction has a kind: a call, a jump or a branch (a conditional jump), each with its goal; a return; an end, after which
nothing runs; and other. A goal is an address, a name with an offset, or POINTER. The depth of the stack is how many bytes lie
between the stack pointer and where it was when the function was called. The base is the depth to which a frame pointer points, or
None if there is none.
"""
import re
from typing import NamedTuple

POINTER = "a pointer"


class Instruction(NamedTuple):
    address: int
    operation: str
    operands: str
    kind: str = "other"
    goal: object = None


def name_and_offset(linked, added=0):
    """Returns the name that a relocation has, and the offset after it."""
    name, offset = re.fullmatch(r"(.*?)([-+]0x[0-9a-f]+)?", linked).groups()
    return name, int(offset or "0", 16) + added


class X86:
    tool = "objdump"
    # The bytes that a call pushes, and a jump does not.
    return_address = 8
    relocation = re.compile(r"R_X86_64_(?:PLT|PC)32\t(.*)$")
    prefixes = re.compile(r"^((notrack|bnd|lock|rep\w*|data16|cs|ds) )+")
    padding = ("nop", "xchg", "int3", "ud2")
    # Functions of Linux. A jump to the first is a return. A jump or call to a function whose name begins with the second leads
    # through a pointer.
    return_thunk, pointer_thunk = "__x86_return_thunk", "__x86_indirect_thunk_"

    def instructions(self, rows):
        for address, text, linked in rows:
            operation, _, operands = self.prefixes.sub("", text.partition("#")[0]).strip().partition(" ")
            yield self.instruction(address, operation, operands.strip(), linked)

    def instruction(self, address, operation, operands, linked):
        if operation == "ret" or operation == "jmp" and linked and linked.startswith(self.return_thunk):
            return Instruction(address, operation, operands, "return")
        if operation in ("ud2", "hlt", "int3"):
            return Instruction(address, operation, operands, "end")
        if operation != "call" and not operation.startswith("j"):
            return Instruction(address, operation, operands)
        kind = operation if operation == "call" else "jump" if operation == "jmp" else "branch"
        if operands.startswith("*") or linked and linked.startswith(self.pointer_thunk):
            return Instruction(address, operation, operands, kind, POINTER)
        goal = name_and_offset(linked, 4) if linked else int(operands.split()[0], 16)
        return Instruction(address, operation, operands, kind, goal)

    @staticmethod
    def register_of(jump):
        """Returns the register through which a jump leads."""
        return jump.operands[1:] if jump.operands.startswith("*%") else None

    @staticmethod
    def changes(instruction, register):
        return instruction.operands.endswith("," + register) and instruction.operation not in ("cmp", "test")

    @staticmethod
    def below(operands, depth, base):
        """Returns how deep the stack is used if an instruction with these operands reads or writes below the stack pointer, or
        below where a frame pointer points. Otherwise returns the depth of the stack pointer."""
        found = re.search(r"-0x([0-9a-f]+)\(%r(sp|bp)\b", operands)
        start = depth if found and found[2] == "sp" else base
        return depth if not found or start is None else start + int(found[1], 16)

    @staticmethod
    def moved(operation, operands, depth, base):
        """Returns how deep the stack is after an instruction, and the base. Raises KeyError or TypeError if the stack pointer is
        moved by a number that is not in the code."""
        if operation in ("push", "pushq", "pushf"):
            return depth + 8, base
        if operation in ("pop", "popq", "popf") and operands != "%rsp":
            return depth - 8, None if operands == "%rbp" else base
        if operation == "leave":
            return base - 8, None
        if operation == "mov" and operands in ("%rsp,%rbp", "%rbp,%rsp"):
            return (depth, depth) if operands == "%rsp,%rbp" else (base + 0, base)
        is_moved = operation == "enter" or operation == "xchg" and "%rsp" in operands or re.search(r"(^|,)%[er]?spl?$", operands)
        if not is_moved or operation in ("cmp", "test"):
            return depth, base
        number, register = re.fullmatch(r"\$?(-?0x[0-9a-f]+)(\(%r[sb]p\))?,%rsp|.*", operands).groups()
        number = int(number, 16)
        number -= (number >= 1 << 63) << 64
        start = base if register == "(%rbp)" else depth
        return {"sub": depth + number, "add": depth - number, "and": depth - number, "lea": start - number}[operation], base


class Arm64:
    tool = "aarch64-linux-gnu-objdump"
    return_address = 0
    relocation = re.compile(r"R_AARCH64_(?:CALL|JUMP)26\t(.*)$")
    padding = ("nop", "udf", "brk")
    branches = re.compile(r"b\.\w+|cbn?z|tbn?z")

    def instructions(self, rows):
        for address, text, linked in rows:
            operation, _, operands = text.partition("//")[0].strip().partition("\t")
            yield self.instruction(address, operation, operands.partition("\t")[0].strip(), linked)

    def instruction(self, address, operation, operands, linked):
        kinds = {"ret": "return", "brk": "end", "udf": "end", "bl": "call", "blr": "call", "b": "jump", "br": "jump"}
        kind = kinds.get(operation) or ("branch" if self.branches.fullmatch(operation) else "other")
        if kind in ("call", "jump", "branch"):
            target = re.search(r"\b([0-9a-f]+) <", operands)
            goal = name_and_offset(linked) if linked else int(target[1], 16) if target else POINTER
            return Instruction(address, operation, operands, kind, goal)
        return Instruction(address, operation, operands, kind)

    @staticmethod
    def register_of(jump):
        return jump.operands

    @staticmethod
    def changes(instruction, register):
        is_read = instruction.operation.startswith(("st", "cmp", "tst"))
        return re.match(rf"[xw]{register[1:]},", instruction.operands) and not is_read

    @staticmethod
    def below(operands, depth, base):
        found = re.search(r"\[(sp|x29), #-(\d+)\](?!!)", operands)
        start = depth if found and found[1] == "sp" else base
        return depth if not found or start is None else start + int(found[2])

    @staticmethod
    def moved(operation, operands, depth, base):
        if found := re.search(r"\[sp, #(-?\d+)\]!$|\[sp\], #(-?\d+)$", operands):
            depth -= int(found[1] or found[2])
        if operation.startswith("ld") and re.match(r"x29,|\w+, x29,", operands):
            return depth, None
        found = re.fullmatch(r"(sp|x29)(?:, (sp|x29))?(?:, #(0x[0-9a-f]+)(?:, lsl #(\d+))?)?.*", operands)
        if not found or operation.startswith(("st", "cmp", "cmn", "tst")):
            return depth, base
        if found[1] == "x29" and (found[2] != "sp" or operation not in ("add", "sub", "mov")):
            return depth, None
        number = int(found[3] or "0", 16) << int(found[4] or 0)
        start = {"sp": depth, "x29": base}[found[2]]
        to = start + {"add": -number, "sub": number, "mov": 0}[operation]
        return (to, base) if found[1] == "sp" else (depth, to)


class RiscV64:
    tool = "riscv64-linux-gnu-objdump"
    return_address = 0
    relocation = re.compile(r"R_RISCV_CALL(?:_PLT)?\t(.*)$")
    padding = ("nop", "unimp", "c.nop")

    def instructions(self, rows):
        called = None
        for address, text, linked in rows:
            code, _, comment = text.partition("#")
            operation, _, operands = code.strip().partition("\t")
            yield self.instruction(address, operation, operands.strip(), comment, called)
            called = linked

    @staticmethod
    def instruction(address, operation, operands, comment, called):
        """Returns the instruction of a row. A far call or jump has an `auipc` before it. The relocation of this names the goal."""
        if operation in ("ret", "unimp", "ebreak"):
            return Instruction(address, operation, operands, "return" if operation == "ret" else "end")
        kind = {"jal": "call", "jalr": "call", "j": "jump", "jr": "jump"}.get(operation)
        if not kind and not re.fullmatch(r"b(eq|ne|lt|ge|gt|le)u?z?", operation):
            return Instruction(address, operation, operands)
        target = re.search(r"\b([0-9a-f]+) <", operands if operation not in ("jalr", "jr") else comment)
        goal = name_and_offset(called) if called else int(target[1], 16) if target else POINTER
        return Instruction(address, operation, operands, kind or "branch", goal)

    @staticmethod
    def register_of(jump):
        return jump.operands

    @staticmethod
    def changes(instruction, register):
        return instruction.operands.startswith(f"{register},") and not re.fullmatch(r"s[bhwd]|b\w+", instruction.operation)

    @staticmethod
    def below(operands, depth, base):
        found = re.search(r"-(\d+)\((sp|s0)\)", operands)
        start = depth if found and found[2] == "sp" else base
        return depth if not found or start is None else start + int(found[1])

    @staticmethod
    def moved(operation, operands, depth, base):
        if not re.match(r"(sp|s0),", operands) or re.fullmatch(r"s[bhwd]|b\w+", operation):
            return depth, base
        to, start, number = re.fullmatch(r"(sp|s0),(sp|s0)?(?:,(-?\d+))?.*", operands).groups()
        if to == "s0" and (start != "sp" or operation not in ("add", "addi", "mv")):
            return depth, None
        moved = {"sp": depth, "s0": base}[start] - {"add": int, "addi": int, "mv": lambda _: 0}[operation](number)
        return (moved, base) if to == "sp" else (depth, moved)


# The processors by ELF's numbers.
MACHINES = {62: X86(), 183: Arm64(), 243: RiscV64()}
