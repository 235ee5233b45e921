"""Compiles the library's module so that each of its loads and stores calls a function first, as ThreadSanitizer has it."""
import re

import building
from checks import look, read
from programs import printed


def compile_traced(module, attributes, flags, to):
    """Compiles a module, each function with these attributes, with the kit's clang and these flags. Writes the object `to`."""
    text = read(module)
    groups = re.findall(r"^define .* (#\d+) \{$", text, re.M)
    look(groups and len(groups) == len(re.findall(r"^define ", text, re.M)), "a function of the module has no attributes")
    more = lambda it: f"{it[1]} {attributes} }}" if it[2] in groups else it[0]
    marked = re.sub(r"^(attributes (#\d+) = \{.*) \}$", more, text, flags=re.M)
    words = [*building.compiler(building.X86_64), *building.TRAPS, *flags, "-c", "-x", "ir", "-", "-o", to]
    printed(*words, stdin=None, input=marked)
