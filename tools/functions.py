"""Finds the functions of a source in Rattle, and what the kit calls their impls and traits, for the scripts beside it."""
import collections
import re

FUNCTION = re.compile(r'( *)(?:pub(?:\([a-z ]+\))? )?(?:const )?(?:unsafe )?(?:safe )?(?:extern "C" )?fn (\w+)')
BLOCK = re.compile(r"(?:pub(?:\([a-z ]+\))? )?(?:unsafe )?(?:impl|trait)\b")

# A function with its body: the lines of its head, its body's brackets, and the impl or trait around it.
Function = collections.namedtuple("Function", "head first last name block")


def functions_in(lines):
    """The functions with a body in a text in the layout of rt fmt."""
    block = ""
    for head, line in enumerate(lines):
        if BLOCK.match(line):
            ends = next(it for it in range(head, len(lines)) if lines[it].endswith(("{", "}")))
            block = " ".join(lines[head : ends + 1])
        found = FUNCTION.match(line)
        if found:
            indent, name = found.groups()
            rest = range(head, len(lines))
            first = next((it for it in rest if lines[it].endswith("{") and re.match(rf"{indent}\S", lines[it])), None)
            last = next((it for it in rest if lines[it] == f"{indent}}}"), None)
            if first is not None and last is not None and first < last:
                yield Function(head, first, last, name, block if indent else "")


def parted(block):
    """The parameters of an impl, and what stands after them, without lifetimes and the modules of names."""
    text = re.sub(r"^(?:unsafe )?impl|\{$", "", re.sub(r"\w+::|&|'\w+", "", block.partition(" where ")[0]))
    depth = 0
    for at, char in enumerate(text):
        depth += (char == "<") - (char == ">")
        if depth == 0:
            break
    given, rest = text[1:at], text[at:] if at == 0 else text[at + 1 :]
    while re.search(r"<[^<>]*>", given):
        given = re.sub(r"<[^<>]*>", "", given)
    return {re.sub(r"^const ", "", it.strip()).partition(":")[0] for it in given.split(",")}, rest


def owner_of(block):
    """What a check names an impl or a trait: `Trait`, `Type+Its+Types`, or `TypeItsTypesTraitItsTypes`."""
    trait = re.match(r"(?:pub(?:\([a-z ]+\))? )?(?:unsafe )?trait (\w+)", block)
    if trait:
        return trait[1]
    parameters, rest = parted(block)
    head, is_of_trait, kind = rest.partition(" for ")
    own, of = ([it for it in re.findall(r"\w+", text) if it not in parameters] for text in (head, kind))
    return "".join(it[0].upper() + it[1:] for it in of + own) if is_of_trait else "+".join(own)
