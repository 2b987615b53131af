"""The named items of a file, and the words of each: what a proof reaches by name.

In a Rattle file an item is a function's signature with its clauses, a type, a constant, a trait, a macro, a module line, or what
`pub use` exports. An `impl` of a trait counts with its type, and a method with its name and its type. In antt an item is a
declaration with its equations, under the name of its file. What has no such name, as a call of a macro, a file's attributes or an
operator, counts always. An import counts with the items that name it. All names count in their crate alone.

A function is reached from code, which can call it, and from the paths of imports in antt: not from a clause's word or a field.
"""
import hashlib
import re
from collections import defaultdict, namedtuple

from source import CALL, ITEM, Source

WORD = re.compile(r"\w+")
USE = re.compile(r"^ *(pub(?:\([\w ]+\))? )?(?:ghost )?use ([^;\n]*(?:\n[^;]*)?);", re.MULTILINE)
ANTT_USE = re.compile(r"^ *(pub )?use (.+)", re.MULTILINE)
METHOD = re.compile(r"^ {4}(?:pub(?:\([\w ]+\))? )?((?:(?:const|unsafe|extern) +)*)fn (\w+)", re.MULTILINE)
MACRO = re.compile(r"^macro_rules! (\w+)", re.MULTILINE)
MAY_CALL = re.compile(r"(?<![.\w])\w+|\w+(?=\s*(?:\(|::))")
DECLARED = re.compile(r"^ *((?:(?:abbrev|unfoldable|pub|data|record|private|module|mod) +)*)(\S+)")
# The lines that begin something at a depth, as `rt fmt` leaves them: the others go on with it.
STARTS = {depth: re.compile(rf"^ {{{depth}}}(?![\s)\]}}>{{]|(?:where|unfolding)\b)", re.MULTILINE) for depth in (0, 2, 4)}


def digest(*parts):
    """A sum of texts, and of sums of them."""
    found = hashlib.sha256()
    for part in parts:
        octets = part.encode()
        found.update(len(octets).to_bytes(8, "big") + octets)
    return found.hexdigest()


def words_of(*texts):
    return frozenset(WORD.findall("\n".join(texts)))


def calls_of(words):
    """Words as the names of functions."""
    return frozenset(f"{word}()" for word in words)


def calls_in(code):
    """The functions that a text without bodies calls."""
    return calls_of(name for pair in CALL.findall(code) for name in pair)


def named_in(code):
    """The functions that code may name: all words but fields."""
    return calls_of(MAY_CALL.findall(code))


# A text that counts once all the words of one of its names are reached, or always if it has no name. Its words are then reached.
Item = namedtuple("Item", "names text words")


def imported(tree, path=""):
    """Each path that a `use` names, with the name that it has in the file."""
    head, brace, rest = tree.partition("{")
    if not brace:
        whole, _, name = head.partition(" as ")
        parts = [part for part in re.split(r"::|\.", path + whole.strip()) if part not in ("self", "")]
        yield path + whole.strip(), name.strip() or (parts or [""])[-1]
        return
    depth, last = 0, 0
    rest = rest.rpartition("}")[0] + ","
    for at, sign in enumerate(rest):
        depth += (sign == "{") - (sign == "}")
        if sign == "," and not depth:
            if rest[last:at].strip():
                yield from imported(rest[last:at].strip(), path + head.strip())
            last = at + 1


class Imports:
    """The imports of a file. One that nothing in the file names, as a trait for its methods or all of a module, counts with all."""

    def __init__(self, pairs, code):
        self.pairs = []
        words = words_of(code)
        for path, name in pairs:
            parts = words_of(name)
            signs = [] if parts else [sign for sign in name.split("◌") if sign]
            is_named = name not in ("*", "_") and (parts <= words if parts else all(sign in code for sign in signs))
            self.pairs.append((f"{path} {name}", parts if is_named else frozenset(), signs if is_named else []))

    def of(self, text, words):
        """The imports that a text with these words reads."""
        return [pair for pair, parts, signs in self.pairs if parts <= words and all(sign in text for sign in signs)]


class Found:
    """The items of one file, as they are found."""

    def __init__(self, imports, *places):
        self.imports, self.places, self.items = imports, frozenset(places), []

    def add(self, names, text, calls=frozenset()):
        """Adds a text, with the imports that it reads. Each of these may be of a function."""
        words, text = words_of(text), text.rstrip()
        used = self.imports.of(text, words) if names else []
        names = tuple(name | self.places for name in names)
        paths = words_of(*used)
        self.items.append(Item(names, "\n".join([text, *used]), words | self.places | calls | paths | calls_of(paths)))

    def export(self, pairs):
        for path, name in pairs:
            names = (words_of(name) | self.places,) if name not in ("*", "_") else ()
            words = words_of(path)
            self.items.append(Item(names, f"{path} {name}", words | self.places | calls_of(words)))


def chunks(text, code, depth=0):
    """The parts of a text that begin at a depth, each with its place. An attribute is of what follows it."""
    places, is_over = [], True
    for found in STARTS[depth].finditer(code):
        if is_over:
            places.append(found.start())
        is_over = not code.startswith("#[", found.end())
    return zip(places, [*places[1:], len(text)])


def named(*names):
    """That all these words are one name."""
    return [frozenset(names)]


def imports_of(source):
    """The imports of a Rattle file."""
    uses = [found[2] for found in USE.finditer(source.code) if not found[1]]
    return Imports([pair for use in uses for pair in imported(use)], USE.sub("", source.code))


def rattle_items(whole, text, types):
    """The items in a text of a Rattle file, which may lack bodies. `types` are the types that have impls of their own here."""
    source = Source(whole.path, text)
    found, code, plain = Found(imports_of(whole), whole.crate), source.code, source.code_without_clauses
    blocks = {block.start: block for block in source.blocks if block.kind == "impl"}
    is_parent = any(item.kind == "mod" for item in source.items)
    for start, end in chunks(text, code):
        use, block = USE.match(code, start, end), next((blocks[at] for at in blocks if start <= at < end), None)
        item = ITEM.search(code, start, end)
        calls = calls_in(plain[start:end])
        if use:
            # Modules below this one may name what it imports.
            found.export(imported(use[2]) if use[1] or is_parent else [])
        elif block and block.trait:
            found.add(named(block.owner) if block.owner in types else [], text[start:end], calls)
        elif block:
            add_methods(found, block, text[start:end], plain[start:end])
        elif item and item[3] == "fn":
            found.add(named(f"{item[4]}()"), text[start:end], named_in(plain[start:end]) if "const" in item[2] else calls)
        elif item and item[3] in ("struct", "enum", "type"):
            found.add(named(item[4]), text[start:end], calls)
        else:
            names = [item[4]] if item else MACRO.findall(code, start, end)
            found.add(named(*names) if names else [], text[start:end], named_in(plain[start:end]))
    return found.items


def add_methods(found, block, text, plain):
    """The items of an `impl` of no trait: its functions by their names and the type's, all else by the type's."""
    parts = list(chunks(text, plain, 4))
    head = text[: parts[0][0]] if parts else text
    for start, end in parts:
        method = METHOD.search(plain, start, end)
        calls = (calls_in if method and "const" not in method[1] else named_in)(plain[start:end])
        found.add(named(block.owner, *([f"{method[2]}()"] if method else [])), head + text[start:end], calls)


def antt_items(text, *places):
    """The items of a file of definitions or lemmas, without comments."""
    uses = [(bool(use[1]), list(imported(use[2]))) for use in ANTT_USE.finditer(text)]
    found = Found(Imports([pair for is_public, pairs in uses for pair in pairs if not is_public], ANTT_USE.sub("", text)), *places)
    texts, names = defaultdict(list), defaultdict(set)
    for is_public, pairs in uses:
        found.export(pairs if is_public else [])
    for start, end in chunks(text, text):
        part = text[start:end]
        if not ANTT_USE.match(part):
            key, declared = declaration(part)
            texts[key].append(part)
            names[key] |= declared
    for key, parts in texts.items():
        # A name of signs alone counts always.
        found.add(names[key] if all(names[key]) else [], "\n".join(parts))
    return found.items


def declaration(part):
    """The first name of a declaration or an equation, and all names that it declares."""
    head = DECLARED.match(part)
    kinds, name = head[1].split(), head[2]
    if {"data", "record", "module"} & set(kinds):
        inner = [part[start:end] for start, end in chunks(part, part, 2)]
        fields = (DECLARED.match(one.partition(" : ")[0] + " ").group(0) for one in inner)
        found = {words_of(DECLARED.match(field)[2]) for field in fields}
        return part if name == "_" else name, found | (set() if name == "_" else {words_of(name)})
    before, colon, _ = part[head.start(2) :].replace("\n", " ").partition(" : ")
    is_declared = kinds or colon and "=" not in before
    return name, {words_of(one) for one in (before.split() if colon else [name])} if is_declared else set()
