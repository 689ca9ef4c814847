"""The numbers of rights, signals, kinds, statuses and policies, and their names for a person."""

RIGHTS = {
    "DUPLICATE": 1 << 0, "TRANSFER": 1 << 1, "READ": 1 << 2, "WRITE": 1 << 3, "DESTROY": 1 << 9,
    "SET_POLICY": 1 << 10, "SIGNAL": 1 << 12, "SIGNAL_PEER": 1 << 13, "WAIT": 1 << 14,
    "INSPECT": 1 << 15, "MANAGE_JOB": 1 << 16, "MANAGE_PROCESS": 1 << 17,
}
KNOWN_RIGHTS = sum(RIGHTS.values())
SAME_RIGHTS = 1 << 31
KINDS = {"process": 1, "channel": 4, "event": 5, "port": 6, "eventpair": 16, "job": 17}
KIND_NAMES = {number: name for name, number in KINDS.items()}
# The rights of the first handle of a new object.
DEFAULT_RIGHTS = {
    "process": 184847, "channel": 61454, "event": 53251, "port": 32783, "eventpair": 61443, "job": 251407,
}

READABLE, WRITABLE, PEER_CLOSED = 1, 2, 4
SIGNALED = TERMINATED = 8
NO_JOBS, NO_PROCESSES = 16, 32
USER_SIGNALS = 0xFF000000
USERS = {f"USER_{n}": 1 << 24 + n for n in range(8)}
SIGNALS = {
    "READABLE": READABLE, "WRITABLE": WRITABLE, "PEER_CLOSED": PEER_CLOSED, "SIGNALED": SIGNALED,
    "TERMINATED": TERMINATED, "NO_JOBS": NO_JOBS, "NO_PROCESSES": NO_PROCESSES, **USERS,
}
# The signals that an object of each kind may have, beside those of users.
SIGNALS_OF = {
    "channel": ("READABLE", "WRITABLE", "PEER_CLOSED"),
    "event": ("SIGNALED",),
    "eventpair": ("PEER_CLOSED", "SIGNALED"),
    "process": ("TERMINATED",),
    "job": ("TERMINATED", "NO_JOBS", "NO_PROCESSES"),
    "port": (),
}
STATUSES = {
    "OK": 0, "NOT_SUPPORTED": 2, "NO_RESOURCES": 3, "NO_MEMORY": 4, "INVALID_ARGS": 10,
    "BAD_HANDLE": 11, "WRONG_TYPE": 12, "OUT_OF_RANGE": 14, "BUFFER_TOO_SMALL": 15, "BAD_STATE": 20,
    "TIMED_OUT": 21, "SHOULD_WAIT": 22, "PEER_CLOSED": 24, "NOT_FOUND": 25, "ALREADY_EXISTS": 26,
    "ACCESS_DENIED": 30,
}
CONDITIONS = {
    "BAD_HANDLE": 0, "WRONG_OBJECT": 1, "NEW_ANY": 2, "NEW_CHANNEL": 3, "NEW_EVENT": 4,
    "NEW_EVENTPAIR": 5, "NEW_PORT": 6, "NEW_PROCESS": 7,
}
CONDITION_NAMES = {number: name for name, number in CONDITIONS.items()}
# The conditions that NEW_ANY stands for, with their bits among the needs of an image.
NEEDS = {"NEW_CHANNEL": 1, "NEW_EVENT": 2, "NEW_EVENTPAIR": 4, "NEW_PORT": 8, "NEW_PROCESS": 16}
ACTIONS = {"ALLOW": 0, "DENY": 1, "KILL": 2}
ACTION_NAMES = {number: name for name, number in ACTIONS.items()}
MODES = {"RELATIVE": 0, "ABSOLUTE": 1}
MODE_NAMES = {number: name for name, number in MODES.items()}
KILLED, BY_POLICY, STUCK = -1024, -1026, -1028


def rights_text(number, kind=None):
    """The names of the rights, those of a new object of the kind as `all rights`."""
    if kind is not None and number == DEFAULT_RIGHTS[kind]:
        return "all rights"
    if number == SAME_RIGHTS:
        return "the same rights"
    names = [name for name, bit in RIGHTS.items() if number & bit]
    rest = number & ~KNOWN_RIGHTS
    return ", ".join(names + ([str(rest)] if rest else [])) or "no rights"


def signals_text(number, kind):
    """The names of the signals of an object of the kind; bits that it doesn't have as a number."""
    names = {name: SIGNALS[name] for name in SIGNALS_OF[kind]} | USERS
    given = [name for name, bit in names.items() if number & bit]
    rest = number & ~sum(names.values())
    return ", ".join(given + ([str(rest)] if rest else [])) or "no signal"
