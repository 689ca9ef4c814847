"""Counted blocks: rep and endrep nest as brackets, and a jump stays in its blocks (docs/IMAGE.md)."""
from dataclasses import replace

MOST_BLOCKS, MOST_TURNS = 4, 1_000_000


def blocks_of(code):
    """Of each place, and of that behind the code, the blocks that it is in, each by its rep, the innermost first. An
    endrep is in its block, and the rep isn't."""
    found = [()]
    for place, one in enumerate(code):
        blocks = found[-1]
        found.append((place, *blocks) if one.name == "rep" else blocks[1:] if one.name == "endrep" else blocks)
    return found


def paired(code):
    """The code with each endrep's target its rep, and each rep's its endrep, as far as there is one."""
    code = list(code)
    blocks = blocks_of(code)
    for place, one in enumerate(code):
        if one.name == "endrep" and blocks[place]:
            rep = blocks[place][0]
            code[place] = replace(one, target=rep)
            code[rep] = replace(code[rep], target=place)
    return tuple(code)


def first_breach(code):
    """The first jump, rep or endrep that breaks the rule, if one does."""
    blocks = blocks_of(code)
    return next((place for place, one in enumerate(code) if one.row and not keeps(code, blocks, place, one)), None)


def keeps(code, blocks, place, one):
    """Whether an instruction keeps the rule."""
    if one.name == "rep":
        is_bound = 1 <= one.number <= MOST_TURNS and len(blocks[place]) < MOST_BLOCKS
        return is_bound and one.target < len(code) and (code[one.target].name, code[one.target].target) == ("endrep", place)
    if one.name == "endrep":
        return blocks[place][:1] == (one.target,) and code[one.target].target == place
    return not one.row.is_jump or blocks[place] == (blocks[one.target] if one.target < len(code) else ())


def end_of(image, rep):
    """Where the block of this rep ends."""
    return image.code[rep].target
