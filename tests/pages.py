"""The states of a page as lines, as tools/follow --held has them."""
import json
import re


def data_of(text):
    """What a page shows, as its script reads it."""
    return json.loads(re.search(r'<script type="application/json" id="data">(.*?)</script>', text, re.S)[1])


def state_at(data, stop):
    """The records of a state, by their keys: the kept one before it, and what changed since."""
    kept, state = stop // data["apart"], {}
    changes = [data["kept"][kept], *(data["changes"][n] for n in range(kept * data["apart"] + 1, stop + 1))]
    for numbers in changes:
        for key, record in zip(numbers[::2], numbers[1::2]):
            state[data["keys"][key]] = data["records"][record] if record >= 0 else None
    return {key: record for key, record in state.items() if record is not None}


def with_rights(title, rights):
    """An object and rights, as they are told of a handle."""
    return f"{title[:-1]}, {rights})" if title.endswith(")") else f"{title} ({rights})"


def process_lines(name, waits, handles):
    """What a process waits for, and its handles: number, registers, object and rights of each."""
    waiting = [f"{name} waits for {waits}"] if waits else []
    return waiting + [f"{name} has handle {value}, by {by}: {with_rights(title, rights)}" for value, by, title, rights in handles]


def object_lines(title, kind, raised, signals, lying, waits):
    """What lies in the queue of an object, what calls have raised, and the registered waits."""
    lines = [f"{title} has {text}" for text in lying]
    if raised and kind != "channel":
        lines.append(f"{title} is {signals}")
    return lines + [text.replace("has a wait,", f"has a wait at {title},", 1) for text in waits]


def held_of(data, state):
    """The lines of a state."""
    lines = []
    for key, record in state.items():
        if key.endswith("p"):
            handles = [(value, by, title, rights) for value, by, _, title, rights in state.get(f"{record['pid']}h", [])]
            lines += process_lines(record["name"], record.get("waits"), handles)
        elif key.endswith("o"):
            lying = [data["texts"][number] for number, _ in record.get("messages", [])]
            lying += [data["texts"][number] for number in record.get("packets", [])]
            lines += object_lines(record["title"], record["kind"], record["raised"], record["signals"], lying, record.get("waits", []))
    return sorted(lines)
