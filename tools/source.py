"""The functions of a formatted .rt file by its layout: where each begins and ends, and what it is named in the prover's output.

rt fmt puts a function's closing brace into a line of its own, as far to the right as its `fn`. The opening brace is at the end of the
signature, or in a line of its own behind the clauses."""
import re

FUNCTION = re.compile(r"^( *)(?:pub(?:\([a-z]+\))? )?(?:default )?(?:const )?(?:unsafe )?(?:final )?(?:extern \S+ )?fn (\w+)")
CYCLE = re.compile(r"#\[cycle\((\w+)\)\]")
BLOCK = re.compile(r"^(?:pub(?:\([a-z]+\))? )?(?:unsafe )?(impl|trait)\b(.*)")


class Function:
    """A function: its lines from `first`, with its comment and its attributes, to `last`, both counted from 1, those of its body, the block
    that it is in, and the cycle of calls that it says it is in."""

    def __init__(self, name, block, first):
        self.name, self.block, self.first, self.last, self.body, self.cycle = name, block, first, first, None, ""


def bare(path):
    """The last word of a path of types without what stands in < >."""
    depth, kept = 0, ""
    for char in path:
        depth += (char == "<") - (char == ">")
        kept += char if not depth and char != ">" else ""
    return re.findall(r"\w+", kept)[-1]


def block_of(text):
    """The words that the name of the block's functions begins with: the type, and in an impl of a trait the trait."""
    depth, at = 0, 0
    if text.startswith("<"):
        for at, char in enumerate(text):
            depth += (char == "<") - (char == ">")
            if not depth:
                break
        text = text[at + 1 :]
    head = re.split(r"\bwhere\b|\{", text)[0]
    parts = re.split(r"\bfor\b(?!\s*<)", head)
    return [bare(it) for it in reversed(parts) if re.search(r"\w", it)]


def functions(text):
    """Each function of a file, in order; one in another's body is part of that one."""
    lines = text.split("\n")
    found, block, at = [], [], 0
    while at < len(lines):
        if head := BLOCK.match(lines[at]):
            block = block_of(head[2])
        elif re.match(r"^\}", lines[at]):
            block = []
        elif head := FUNCTION.match(lines[at]):
            made = Function(head[2], [] if not head[1] else block, start_of(lines, at, head[1]) + 1)
            cycle = CYCLE.search("\n".join(lines[made.first - 1 : at]))
            made.cycle = cycle[1] if cycle else ""
            at = end_of(lines, at, head[1], made)
            found.append(made)
        at += 1
    return found


def start_of(lines, at, indent):
    """The place of the first line of a function's comment and attributes, where it has some: the prover counts them to it."""
    begins = tuple(indent + it for it in ("#[", "//", " ", ")"))
    while at and lines[at - 1].startswith(begins) and not lines[at - 1].endswith(("{", "}", ";")):
        at -= 1
    return at


def end_of(lines, at, indent, made):
    """Sets where the function ends whose head is in this line, and where its body is; returns the place of its last line."""
    depth = 0
    while at < len(lines):
        line = lines[at]
        depth += line.count("{") - line.count("}")
        is_own = line.startswith(indent) and not line.startswith(indent + " ")
        # a trait's function ends with its clauses; a semicolon in a clause is between braces
        if line.endswith(";") and not depth or is_own and line.endswith("}"):
            break
        if is_own and line.endswith("{"):
            opens = at
            while at < len(lines) and lines[at] != indent + "}":
                at += 1
            made.body = (opens + 2, at)
            break
        at += 1
    made.last = min(at, len(lines) - 1) + 1
    return made.last - 1


def without_bodies(text):
    """The text with the bodies of its functions left out: what is left says all that a caller is told."""
    lines = text.split("\n")
    for it in functions(text):
        if it.body:
            for at in range(it.body[0] - 1, it.body[1]):
                lines[at] = None
    return "\n".join(it for it in lines if it is not None)
