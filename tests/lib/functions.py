"""Finds the functions of a source file, with their clauses and comments."""
import re
import typing

# Patterns of a function, of the type or trait around it, and of a clause: its name, if it has one, and its first word.
FUNCTION = re.compile(r"^ *(pub(?:\(\w+\))? )?(?:const |unsafe |extern \"C\" )*fn (\w+)")
OWNER = re.compile(r"^(?:(?:unsafe )?impl(?P<parameters><[^>]*>)? (?:(?:\w+::)*(?P<trait>\w+)(?:<(?P<of>.*?)>)? for )?"
                   r"(?P<type>\w+)(?:<(?P<with>[^>]*)>)?|pub trait (?P<declared>\w+))")
CLAUSE = re.compile(r"^ *ensures\*? ?(\w*) ?\{ ?(\w*)")


class Function(typing.NamedTuple):
    """A function of a source. The prover's name of a method also has the arguments of the type, the trait and its arguments."""
    is_public: bool
    is_declared_by_trait: bool
    name: str
    provers_name: str
    clauses: list
    comment: str


def text_of_comment(comment):
    return re.sub(r"\[(`[^`]*`)\](?:\([^)]*\))?", r"\1", " ".join(comment)).strip()


def names_of(owner, function):
    """Returns the name of a method with its type, and the prover's name."""
    def arguments(of):
        return "".join(word for word in re.findall(r"\b[A-Z]\w*", owner[of] or "") if word not in parameters)

    declared, parameters = owner["type"] or owner["declared"], re.findall(r"\w+", owner["parameters"] or "")
    before = declared + (arguments("with") + owner["trait"] + arguments("of") if owner["trait"] else "")
    return f"{declared}::{function}", f"{before}::{function}"


def functions_of(path):
    """Returns the functions of a source. A method of a trait and one that a public trait declares count as public."""
    owner, comment, found = None, [], []
    with open(path, encoding="utf-8") as opened:
        lines = opened.read().split("\n")
    for line in lines:
        function, clause = FUNCTION.match(line), CLAUSE.match(line)
        if OWNER.match(line):
            owner = OWNER.match(line).groupdict()
        elif line.startswith("}"):
            owner = None
        if function:
            name, provers_name = names_of(owner, function[2]) if owner else (function[2], function[2])
            is_public = function[1] == "pub " or bool(owner and (owner["trait"] or owner["declared"]))
            is_declared_by_trait = bool(owner and owner["declared"])
            found.append(Function(is_public, is_declared_by_trait, name, provers_name, [], text_of_comment(comment)))
        elif clause and found:
            # A clause without a name is named after the relation that it applies, unless the function has that name.
            is_relation = re.match(r"(?!If|Match)[A-Z]", clause[2]) and clause[2].lower() != found[-1].name.replace("_", "")
            found[-1].clauses.append(clause[1] or (clause[2] if is_relation else ""))
        if line.lstrip().startswith("///"):
            comment.append(line.lstrip(" /"))
        elif not line.lstrip().startswith("#["):
            comment = []
    return found
