"""Digraphs of needs, and what is repeated in a list."""
import heapq


def repeated(things):
    """The first thing that is repeated, with both indexes."""
    seen = {}
    for at, thing in enumerate(things):
        if thing in seen:
            return thing, seen[thing], at
        seen[thing] = at
    return None


def least_cycle(needs):
    """The least cycle of a digraph: the least node on a cycle, a shortest way back to it,
    the least of these."""
    for first in range(len(needs)):
        if not needs[first]:
            continue
        # how far each node is from the first one, against the direction of needs
        far, cycle = {first: 0}, [first]
        for node in cycle:
            for user in range(len(needs)):
                if node in needs[user] and user not in far:
                    far[user] = far[node] + 1
                    cycle.append(user)
        ways = [it for it in needs[first] if it in far]
        if not ways:
            continue
        cycle, node = [first], first
        while True:
            node = min((it for it in needs[node] if it in far), key=lambda it: (far[it], it))
            if node == first:
                return cycle
            cycle.append(node)
    return None


def least_order(needs):
    """The order by smallest numbers, of a digraph without a cycle."""
    missing = [len(set(it)) for it in needs]
    ready = [at for at, it in enumerate(missing) if not it]
    order = []
    while ready:
        node = heapq.heappop(ready)
        order.append(node)
        for user, it in enumerate(needs):
            if node in it:
                missing[user] -= 1
                if not missing[user]:
                    heapq.heappush(ready, user)
    return order
