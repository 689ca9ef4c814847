"""Which definitions one definition stands on, for docs/compare: those that its text names, and theirs."""
import re
from pathlib import Path

TOP = Path(__file__).resolve().parent.parent
HEAD = re.compile(r"^(?:(?:(?:pattern )?abbrev|unfoldable) (?:pub )?|pub (?:record |data )?)(?!use\b|mod\b)(\w+)", re.MULTILINE)
TAKEN = re.compile(r"^(?:unfoldable )?(?:pub )?use Rattle\.([\w.]+)\.\{([^}]*)\}", re.MULTILINE)
RENAMED = re.compile(r"^use Rattle\.([\w.]+?)(?:\.TheVariants)? as (\w+)", re.MULTILINE)


class Module:
    """A file of definitions: the text of each, and what stands for the names that it takes from others."""

    def __init__(self, path):
        self.path = path
        text = re.sub(r"^ *--.*\n", "", path.read_text(encoding="utf-8"), flags=re.MULTILINE)
        self.taken, self.texts = {}, {}
        for module, names in TAKEN.findall(text):
            for name in names.split(","):
                there, _, here = name.strip().partition(" as ")
                self.taken[here or there] = (module, there)
        self.taken.update({here: (module, "") for module, here in RENAMED.findall(text)})
        heads = list(HEAD.finditer(text))
        for head, end in zip(heads, [head.start() for head in heads[1:]] + [len(text)]):
            self.texts[head[1]] = self.texts.get(head[1], "") + text[head.start():end]
        # a constructor stands for its type
        self.owners = {name: data for data, body in self.texts.items() if body.startswith("pub data")
                       for name in re.findall(r"^  (\w+) :", body, re.MULTILINE)}


modules = {}


def module_at(name):
    """The module of this name, if it is one of definitions; those of src and of the kit are none."""
    if name not in modules:
        path = TOP / "crates" / (name.replace(".", "/") + ".antt")
        modules[name] = Module(path) if path.exists() else None
    return modules[name]


def owner_of(module, name):
    """Where the name is defined, which a module may only pass on."""
    here = module_at(module)
    if here is None or name in here.texts:
        return module, name
    if name in here.owners:
        return module, here.owners[name]
    return owner_of(*here.taken[name]) if name in here.taken else (module, name)


def stands_on(root):
    """What the definition stands on, itself too, as pairs of a module and a name."""
    found, left = set(), [root]
    while left:
        module, name = left.pop()
        if (module, name) in found:
            continue
        found.add((module, name))
        here = module_at(module)
        if here is None or name not in here.texts:
            continue
        # a field of a record is none: its record is named where it is made
        for word in set(re.findall(r"(?<![\w.])\w+", here.texts[name])):
            if word in here.texts or word in here.owners or word in here.taken:
                left.append(owner_of(module, word))
    return found


def files_of(root):
    """The files of that, each with its names: definitions, and types that src declares."""
    files = {}
    for module, name in stands_on(root):
        if module_at(module) is not None:
            files.setdefault(module_at(module).path.relative_to(TOP), set()).add(name)
        elif ".specs.declared." in module:
            crate, path = module.removesuffix(".TheVariants").split(".specs.declared.")
            *folders, declared = path.split(".")
            files.setdefault(Path("crates", crate, "src", *folders).with_suffix(".rt"), set()).add(declared)
    return files
