"""Which program of the lab the tools take: that of the checkout, of the package in which they lie, or of the PATH."""
import os
import re
import shutil
from pathlib import Path

TOOLS = Path(__file__).resolve().parent
TOP = TOOLS.parent
# In a package the tools lie in lib/zlab/tools, three folders below its top.
PACKAGE = TOP.parent.parent
NO_PROGRAM = "no program of the lab is here or on the PATH: --zlab PROGRAM names one"


def is_checkout():
    """Whether these are the tools of a checkout, which knows its own programs."""
    return (TOP / "crates.txt").is_file() and (TOP / "tools").resolve() == TOOLS


def called(text):
    """A text with the names of tools as they are called here: in a package zlab-follow, which is tools/follow."""
    return text if is_checkout() else re.sub(r"\btools/(?=[a-z])", "zlab-", text)


def named(word):
    """The file of a program that is named: if no folder is, it is looked for on the PATH first."""
    found = None if "/" in str(word) else shutil.which(word)
    return str(Path(found or word).absolute())


def installed():
    """The program of a package, or else that of the PATH; nothing where there is none."""
    packed = PACKAGE / "bin/zlab"
    return str(packed) if os.access(packed, os.X_OK) else shutil.which("zlab")


def is_quick_package():
    """Whether the tools lie in a package of a quick build, of which nothing is proved."""
    try:
        return (PACKAGE / "PROVED").read_text().startswith("nothing of this is proved")
    except OSError:
        return False


def page(name):
    """The file of a page, as README.md or docs/CHECK.md."""
    return (TOP if is_checkout() else PACKAGE / "share/doc/zlab") / name
