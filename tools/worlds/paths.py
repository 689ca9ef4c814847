"""Ways through the graph of worlds: how many there are, the shortest, and such that take each step."""
import heapq
from collections import defaultdict, deque

from .orders import may_go, run_of


def orders_to_ends(graph):
    """How many orders lead to each end by its name; None where some go round, so that there is no number."""
    indegree = [0] * len(graph.steps)
    for steps in graph.steps:
        for _, target in steps:
            indegree[target] += 1
    counts = [graph.roots.get(number, 0) for number in range(len(graph.steps))]
    ready = deque(number for number, count in enumerate(indegree) if count == 0)
    done = 0
    while ready:
        number = ready.popleft()
        done += 1
        for _, target in graph.steps[number]:
            counts[target] += counts[number]
            indegree[target] -= 1
            if indegree[target] == 0:
                ready.append(target)
    if done < len(graph.steps):
        return None
    named = defaultdict(int)
    for number, end in graph.ends.items():
        named[end] += counts[number]
    return named


def endless_worlds(graph):
    """The worlds from which no order comes to an end."""
    before = defaultdict(list)
    for number, steps in enumerate(graph.steps):
        for _, target in steps:
            before[target].append(number)
    reached, left = set(graph.ends), list(graph.ends)
    while left:
        for number in before[left.pop()]:
            if number not in reached:
                reached.add(number)
                left.append(number)
    return [number for number in range(len(graph.steps)) if number not in reached]


def components(graph, start):
    """The worlds to which one leads, each with a number that those have together which lead to each other."""
    behind, seen, way = [], {start}, [(start, iter(graph.steps[start]))]
    while way:
        number, steps = way[-1]
        target = next((target for _, target in steps if target not in seen), None)
        if target is None:
            behind.append(way.pop()[0])
        else:
            seen.add(target)
            way.append((target, iter(graph.steps[target])))
    before = defaultdict(list)
    for number in behind:
        for _, target in graph.steps[number]:
            before[target].append(number)
    found = {}
    for first in reversed(behind):
        left = [first]
        while left:
            number = left.pop()
            if number not in found:
                found[number] = first
                left += before[number]
    return found


def going_round(graph, start):
    """The processes that go round for ever from a world on, each with a world in which it goes on."""
    together, found = components(graph, start), {}
    for number, first in together.items():
        for pid, target in graph.steps[number]:
            if together[target] == first:
                found.setdefault(pid, number)
    return found


def lines_in(order):
    """How many lines the schedule of an order has."""
    return sum(place == 0 or order[place - 1] != pid for place, pid in enumerate(order))


def shortest_orders(graph, at_worlds, at_steps=()):
    """For each key an order with the fewest lines of a schedule, and among these with the fewest calls. `at_worlds` has
    the keys of a world to which orders lead by its number, `at_steps` those of a step by its world and its process."""
    at_steps = dict(at_steps)
    stepping = defaultdict(list)
    for number, pid in at_steps:
        stepping[number].append(pid)
    heap, came, found = [], {}, {}
    for root in graph.roots:
        order = graph.order_to(root)
        heap.append((lines_in(order), len(order), root, order[-1] if order else 0, None))
    heapq.heapify(heap)
    while heap:
        lines, calls, number, last, before = heapq.heappop(heap)
        if (number, last) in came:
            continue
        came[number, last] = before
        for key in at_worlds.get(number, ()):
            keep_shorter(found, key, (lines, calls, number, last, None))
        for pid in stepping.get(number, ()):
            for key in at_steps[number, pid]:
                keep_shorter(found, key, (lines + (pid != last), calls + 1, number, last, pid))
        for pid, target in graph.steps[number]:
            if (target, pid) not in came:
                heapq.heappush(heap, (lines + (pid != last), calls + 1, target, pid, (number, last)))
    return {key: way_to(graph, came, (number, last), pid) for key, (_, _, number, last, pid) in found.items()}


def keep_shorter(found, key, way):
    """Keeps the way for the key, if it has fewer lines than the one before, or as many and fewer calls."""
    if key not in found or way[:2] < found[key][:2]:
        found[key] = way


def way_to(graph, came, place, pid=None):
    """The order by which the place was come to, and a step further if one is named; where a trace has no room for it,
    the first one that led there."""
    order, at = [], place
    while came[at] is not None:
        order.append(at[1])
        at = came[at]
    more = [] if pid is None else [pid]
    whole = [*graph.order_to(at[0]), *reversed(order), *more]
    has_room = run_of(graph.first, whole).world.items <= graph.first.limit
    return whole if has_room else graph.order_to(place[0]) + more


def covering_runs(graph):
    """Runs that together take each step of the graph, each with how many steps are left to take then."""
    left = [list(reversed(steps)) for steps in graph.steps]
    count = sum(len(steps) for steps in left)
    for number in range(len(left)):
        while left[number]:
            run = run_of(graph.first, graph.order_to(number))
            at = number
            while left[at] and may_go(run.world, left[at][-1][0]):
                pid, target = left[at].pop()
                run.go(pid)
                at, count = target, count - 1
            yield run, count
