"""The text of an image as the library's disassembler lays it out (docs/ASSEMBLER.md)."""


def kind_text(kind):
    return kind or "any"


def directives(image):
    """The lines of the directives."""
    lines = [f".version {image.version}"] if image.version > 1 else []
    lines += [".raw"] if image.raw else []
    lines += [f".memory {image.memory}", f".budget {image.budget}"]
    lines += [f".need {need}" for need in image.needs]
    lines += [f".start {kind_text(kind)} {rights}" for kind, rights in image.starts]
    lines += [f".slots {kind_text(kind)} {length} {rights}" for kind, length, rights in image.slots]
    return lines


def labels(image):
    """The numbers of the instructions that a jump has as its target, to their names."""
    length = len(image.code)
    aimed = {one.target for one in image.code if one.row and one.row.is_jump and one.target < length}
    return {target: f"l{target}" for target in aimed}


def instruction_text(one, names):
    """The line of an instruction, where targets have these names."""
    if one.row is None:
        return ".bytes " + one.content.hex()
    operands = [f"r{register}" for register in one.registers + one.handles]
    if one.row.has_number:
        operands.append(str(one.number))
    if one.row.is_jump:
        operands.append(names.get(one.target, str(one.target)))
    return f"{one.name} {', '.join(operands)}".rstrip()


def listing(image):
    """All lines, and for each instruction the number of its line, from 1."""
    names = labels(image)
    lines, places = directives(image), []
    for at, one in enumerate(image.code):
        if at in names:
            lines.append(names[at] + ":")
        lines.append(instruction_text(one, names))
        places.append(len(lines))
    return lines, places
