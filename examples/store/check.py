#!/usr/bin/env python3
"""Checks a history of the program `workloads`, which tests the store.

    check.py transfers|skew|appends HISTORY

Prints each anomaly: what no execution of the committed transactions one at a time, in an order that
agrees with real time, can show. The status is 1 if there is any.

A history has two lines per transaction: what it read and is about to write, and its outcome. A
transaction without an outcome, because the process was killed, may be committed or not. What is
read is a snapshot, so that reads count whatever the outcome.
"""

import json
import sys
from bisect import bisect_left
from collections import deque
from collections.abc import Iterable, Iterator
from dataclasses import dataclass, field
from typing import Any

# As workloads.cpp sets them up.
ACCOUNTS, BALANCE = 64, 100
SHOWN = 10

Members = dict[str, Any]


@dataclass
class Transaction:
    id: str
    begin: int
    members: Members
    outcome: str | None = None
    end: int | None = None

    def may_be_committed(self) -> bool:
        return self.outcome in ("committed", None)


def read_history(lines: Iterable[str]) -> list[Transaction]:
    """Returns the transactions in the order of their first lines. What was cut off is left out."""
    found: dict[str, Transaction] = {}
    for line in lines:
        try:
            members = json.loads(line)
        except json.JSONDecodeError:
            continue
        if "outcome" in members:
            transaction = found[members["id"]]
            transaction.outcome, transaction.end = members["outcome"], members["end"]
        else:
            found[members["id"]] = Transaction(members["id"], members["begin"], members)
    return list(found.values())


def final(history: list[Transaction]) -> Members:
    """Returns what the last transaction read, once no other ran."""
    return next((each.members for each in history if "final" in each.members), {})


# Transfers: no money comes or goes, and each committed transfer is in the balances at the end.


def check_transfers(history: list[Transaction]) -> Iterator[str]:
    for each in history:
        accounts = each.members.get("accounts", {})
        if accounts and sum(accounts.values()) != ACCOUNTS * BALANCE:
            yield f"{each.id} reads accounts of {sum(accounts.values())} together"
        for account, balance in accounts.items():
            if balance < 0:
                yield f"{each.id} reads {balance} in {account}"
    end = final(history)
    if not end:
        yield "nothing was read at the end"
        return
    balances = dict.fromkeys(end["accounts"], BALANCE)
    for each in history:
        if "from" not in each.members or not each.may_be_committed():
            continue
        client, number = each.id.rsplit(".", 1)
        # The number of the client's last committed transfer.
        last = end["clients"].get(f"client/{client}", 0)
        if each.outcome == "committed" and last < int(number):
            yield f"{each.id} is lost: the last transfer of its client is {last}"
        if each.outcome == "committed" or last == int(number):
            balances[each.members["from"]] -= each.members["amount"]
            balances[each.members["to"]] += each.members["amount"]
    for account, balance in balances.items():
        if end["accounts"][account] != balance:
            yield f"{account} has {end['accounts'][account]} at the end, by the transfers {balance}"


# Write skew: of two switches at most one is off.


def check_skew(history: list[Transaction]) -> Iterator[str]:
    for each in history:
        switches = each.members.get("switches", {})
        for name in switches:
            other = name[:-1] + "y"
            if name.endswith("x") and switches[name] == switches.get(other) == "off":
                yield f"{each.id} reads both switches of {name[:-2]} off"
    if not final(history):
        yield "nothing was read at the end"


# Appends: lists only grow, and the dependencies of transactions, with real time, have no cycle.


@dataclass
class Lists:
    """What the history says of the lists."""

    # Who appends a value to a list.
    writers: dict[tuple[str, int], Transaction] = field(default_factory=dict)
    # The longest state of each list that was read: all others have to be its beginnings.
    order: dict[str, list[int]] = field(default_factory=dict)

    @classmethod
    def of(cls, history: list[Transaction]) -> "Lists":
        lists = cls()
        for each in history:
            for name, value in each.members["append"].items():
                lists.writers[name, value] = each
            for name, values in each.members["read"].items():
                if len(values) > len(lists.order.get(name, [])):
                    lists.order[name] = values
        return lists


def check_lists(history: list[Transaction], lists: Lists) -> Iterator[str]:
    for each in history:
        for name, values in each.members["read"].items():
            if values != lists.order.get(name, [])[: len(values)]:
                yield f"{each.id} reads what is no beginning of another read of {name}"
    for name, values in lists.order.items():
        for place, value in enumerate(values):
            writer = lists.writers.get((name, value))
            if value in values[:place]:
                yield f"{value} is in {name} twice"
            elif writer is None:
                yield f"{value} is in {name}, and nobody has appended it"
            elif not writer.may_be_committed():
                yield f"{value} is in {name}, and {writer.id} wasn't committed"
    for (name, value), writer in lists.writers.items():
        if writer.outcome == "committed" and value not in lists.order.get(name, []):
            yield f"{writer.id} has appended {value} to {name}, and it is lost"


class Graph:
    """Nodes by number, and edges by what they say."""

    def __init__(self, nodes: int) -> None:
        self.edges: list[dict[int, str]] = [{} for _ in range(nodes)]

    def add(self, before: int, after: int, kind: str) -> None:
        if before != after:
            self.edges[before].setdefault(after, kind)

    def components(self) -> Iterator[list[int]]:
        """Returns the strongly connected components of more than one node: Tarjan's algorithm."""
        numbers: dict[int, int] = {}
        least: dict[int, int] = {}
        stack: list[int] = []
        places: dict[int, int] = {}  # on the stack
        for root in range(len(self.edges)):
            if root in numbers:
                continue
            work = [(root, iter(self.edges[root]))]
            numbers[root] = least[root] = len(numbers)
            places[root] = len(stack)
            stack.append(root)
            while work:
                node, rest = work[-1]
                after = next(rest, None)
                if after is None:
                    work.pop()
                    if work:
                        least[work[-1][0]] = min(least[work[-1][0]], least[node])
                    if least[node] == numbers[node]:
                        component = stack[places[node] :]
                        del stack[places[node] :]
                        for member in component:
                            del places[member]
                        if len(component) > 1:
                            yield component
                elif after not in numbers:
                    numbers[after] = least[after] = len(numbers)
                    places[after] = len(stack)
                    stack.append(after)
                    work.append((after, iter(self.edges[after])))
                elif after in places:
                    least[node] = min(least[node], numbers[after])

    def cycle(self, component: list[int]) -> list[int]:
        """Returns a shortest cycle through the least node of a component, which comes first and
        last."""
        inside, first = set(component), min(component)
        before: dict[int, int] = {}
        waiting = deque([first])
        while first not in before:
            node = waiting.popleft()
            for after in self.edges[node]:
                if after in inside and after not in before:
                    before[after] = node
                    waiting.append(after)
        cycle = [first]
        while len(cycle) == 1 or cycle[-1] != first:
            cycle.append(before[cycle[-1]])
        return cycle[::-1]


def dependencies(committed: list[Transaction], lists: Lists) -> Graph:
    """Returns which transactions come before which. A transaction is a node by its index. After
    these come the ends of transactions, in the order of time."""
    ends = sorted(each.end for each in committed if each.end is not None)
    graph = Graph(len(committed) + len(ends))
    nodes = {each.id: node for node, each in enumerate(committed)}

    def writer(name: str, values: list[int], place: int) -> int | None:
        """Returns the node that appended the value at a place, if it has one."""
        known = lists.writers.get((name, values[place])) if 0 <= place < len(values) else None
        return nodes.get(known.id) if known else None

    for name, values in lists.order.items():
        for place in range(len(values) - 1):
            one, other = writer(name, values, place), writer(name, values, place + 1)
            if one is not None and other is not None:
                graph.add(one, other, "is overwritten by")
    for each in committed:
        node = nodes[each.id]
        for name, read in each.members["read"].items():
            values = lists.order.get(name, [])
            one, other = writer(name, values, len(read) - 1), writer(name, values, len(read))
            if one is not None:
                graph.add(one, node, "is read by")
            if other is not None:
                graph.add(node, other, "misses the write of")
        # The last end before it begins, and each end after the one before.
        place = bisect_left(ends, each.begin) - 1
        if place >= 0:
            graph.add(len(committed) + place, node, "")
        if each.end is not None:
            graph.add(node, len(committed) + bisect_left(ends, each.end), "ends before")
    for place in range(len(ends) - 1):
        graph.add(len(committed) + place, len(committed) + place + 1, "")
    return graph


def check_appends(history: list[Transaction]) -> Iterator[str]:
    lists = Lists.of(history)
    yield from check_lists(history, lists)
    if not final(history):
        yield "nothing was read at the end"
    values = ((name, value) for name, order in lists.order.items() for value in order)
    seen = {lists.writers[value].id for value in values if value in lists.writers}
    committed = [
        each
        for each in history
        if each.outcome == "committed" or (each.outcome is None and each.id in seen)
    ]
    graph = dependencies(committed, lists)
    for component in graph.components():
        cycle = graph.cycle(component)
        steps = (
            f"{committed[node].id} {graph.edges[node][after]} "
            for node, after in zip(cycle, cycle[1:])
            if node < len(committed)
        )
        yield f"cycle: {''.join(steps)}the first"


CHECKS = {"transfers": check_transfers, "skew": check_skew, "appends": check_appends}


def main() -> int:
    if len(sys.argv) != 3 or sys.argv[1] not in CHECKS:
        sys.exit(__doc__)
    with open(sys.argv[2]) as file:
        history = read_history(file)
    anomalies = list(CHECKS[sys.argv[1]](history))
    for anomaly in anomalies[:SHOWN]:
        print(anomaly)
    outcomes = [each.outcome for each in history]
    words = ("committed", "conflict", "too old", None)
    counts = ", ".join(f"{outcomes.count(word)} {word or 'unknown'}" for word in words)
    print(f"{sys.argv[1]}: {counts}; {len(anomalies)} anomalies")
    return 1 if anomalies else 0


if __name__ == "__main__":
    sys.exit(main())
