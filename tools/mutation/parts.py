"""The parts of a Rattle file that a proof reads."""
import re

from source import HIDDEN, end_of

MACRO = re.compile(r"^ *macro_rules! \w+ \{", re.MULTILINE)
TACTIC = re.compile(r"^ *#\[tactic\(.*\)\]$", re.MULTILINE)


def without(text, cuts):
    """The lines of a text without these spans of it, without comments and without blank lines."""
    cuts = sorted([*cuts, *(found.span() for found in HIDDEN.finditer(text) if found[0].startswith(("//", "/*")))])
    pieces, last = [], 0
    for start, end in cuts:
        pieces.append(text[last : max(start, last)])
        last = max(end, last)
    lines = "".join([*pieces, text[last:]]).split("\n")
    return "\n".join(line.rstrip() for line in lines if line.strip())


def head_of(text, start):
    """Where the attributes and comments above a function begin."""
    above = text[:start].split("\n")[:-1]
    while above and above[-1].lstrip().startswith(("#[", "//")):
        start -= len(above.pop()) + 1
    return start


def is_seen_above(function):
    """Whether a crate above can name a function."""
    return function.is_public or function.is_export or function.block is not None and function.block.trait is not None


def interface(source, is_below):
    """A file without what only the proof of one function reads: the functions' bodies, and the words on a function that the prover
    tries. Of a crate below, also without the functions that cannot be named outside it. The body of a `const fn` remains, since a
    constant may have its value, and so do traits and macros."""
    macros = [(found.start(), end_of(source.code, found.end() - 1)) for found in MACRO.finditer(source.code)]
    cuts = [found.span() for found in TACTIC.finditer(source.text)]
    for function in source.functions:
        is_whole = any(start <= function.start < end for start, end in macros) or "const" in function.words
        if is_whole or function.block is not None and function.block.kind == "trait":
            continue
        if is_below and not is_seen_above(function):
            cuts.append((head_of(source.text, function.start), function.end))
        elif function.body is not None:
            cuts.append((function.body, function.end))
    return without(source.text, cuts)


def function_text(source, function):
    """A function with its body, and with the words on it that the prover tries."""
    above = source.text[head_of(source.text, function.start) : function.start]
    return "\n".join([*(found[0] for found in TACTIC.finditer(above)), without(source.text[function.start : function.end], [])])


def method_at(source, place):
    """The function that a place of a file is in, and the name of its type in its path: an expression, since the name of a trait
    follows that of the type, and the arguments of either may follow it."""
    function = source.function_at(place)
    if function is None:
        return None, None
    block = function.block
    owner = None if block is None else f"{block.owner}{block.trait}.*" if block.trait else rf"{block.owner}(\+.*)?"
    return function.name, owner
