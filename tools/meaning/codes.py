"""The code of an end in words: `ended 24 (PEER_CLOSED)`, `ended -2147483648 (0x80000000, USER_7)`."""
import re

from meaning.numbers import BY_POLICY, KILLED, STATUSES, STUCK, USER_SIGNALS, USERS

# What the lab itself ends a process with.
BY_THE_LAB = {KILLED: "killed", BY_POLICY: "by a policy", STUCK: "stuck"}
STATUS_NAMES = {number: name for name, number in STATUSES.items() if number}
MOST_PLAIN = 255
END = re.compile(r"\b(ended|ends with) (-?[0-9]{1,10})\b(?! \()")


def meanings(code):
    """What the code of an end may stand for: a name, or its digits if they say more than the number."""
    if code in BY_THE_LAB:
        return [BY_THE_LAB[code]]
    if code in STATUS_NAMES:
        return [STATUS_NAMES[code]]
    word = code & 0xFFFFFFFF
    told = [hex(word)] if word > MOST_PLAIN else []
    return told + ([name for name, bit in USERS.items() if word & bit] if word & USER_SIGNALS == word else [])


def ended(code):
    """An end with what its code may stand for."""
    told = meanings(code)
    return f"ended {code}" + (f" ({', '.join(told)})" if told else "")


def told_ends(text):
    """A text with the meaning behind the code of each end."""
    return END.sub(lambda found: ended(int(found[2])).replace("ended", found[1], 1), text)
