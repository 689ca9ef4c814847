"""What the readers of tools/meaning say of an image, by docs/IMAGE.md and docs/CHECK.md: for tests/try-hostile and
tests/fuzz."""
from meaning.image import ImageFault, decode
from meaning.listing import listing
from meaning.verifier import verify


def verdict_of(image):
    """The fault of decoding, if there is one, and what `check` has to say."""
    try:
        return "", verify(decode(image)).verdict
    except ImageFault as fault:
        return str(fault), f"undecodable {fault}"


def text_of(image):
    """The text of an image that is one."""
    return "".join(f"{line}\n" for line in listing(decode(image))[0])
