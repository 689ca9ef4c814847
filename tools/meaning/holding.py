"""Who holds what in a world, and who waits: handles of those that live, and what lies in queues."""
from meaning.numbers import signals_text
from meaning.about import entry_text, message_text, packet_text


def awaited_text(world, awaited):
    """What a blocked process waits for."""
    kind = world.objects[awaited.koid].kind
    what = "a packet" if awaited.mask is None else signals_text(awaited.mask, kind)
    return f"{what} at {kind} {awaited.koid}"


def held(world, carrying):
    """All of it in lines."""
    for pid, process in world.processes.items():
        if process.state not in ("ready", "blocked"):
            continue
        if process.awaits:
            yield f"process {pid} waits for {awaited_text(world, process.awaits)}"
        for value, entry in sorted(process.handles.items()):
            yield f"process {pid} has handle {value}, by {carrying.told(pid, value)}: {entry_text(entry)}"
    for koid, one in world.objects.items():
        for message in one.queue:
            yield f"channel {koid} has a message of process {message.sent.by}: {message_text(message)}"
        for packet in one.packets:
            yield f"port {koid} has {packet_text(packet)}"
        if one.raised and one.kind != "channel":
            yield f"{one.kind} {koid} is {signals_text(world.active(koid), one.kind)}"
        for wait in world.waits:
            if wait.koid == koid:
                yield (f"process {wait.pid} has a wait at {one.kind} {koid}, key {wait.key}, port {wait.port},"
                       f" for {signals_text(wait.mask, one.kind)}")
