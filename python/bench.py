#!/usr/bin/env python3
"""A day's requests to the catalogue, and to plain graphs that test for a loop before each edge.

    python/bench.py [--requests N] [--seed N]

Builds a catalogue of 200 series and 1,500 derivations. Then one worker makes a mix of the six
requests, each run to its reply. A graph of networkx, where that is installed, and a dictionary of
sets with a depth-first search get the same requests. All must give the same replies.
"""

import argparse
import random
import time
from collections import Counter

try:
    import networkx
except ImportError:
    networkx = None

from pallaymi import (
    AddDerivation,
    AddSeries,
    Catalogue,
    HasDerivation,
    HasSeries,
    RemoveDerivation,
    RemoveSeries,
    Reply,
)

SERIES = 200
DERIVATIONS = 1500
# Of a thousand requests. Removals are rare: a removed series takes its derivations with it.
MIX = {
    HasDerivation: 400,
    HasSeries: 253,
    AddDerivation: 240,
    RemoveDerivation: 60,
    AddSeries: 45,
    RemoveSeries: 2,
}


class Proved:
    """The catalogue; a sweep makes room where there is none."""

    name = "pallaymi"

    def __init__(self):
        self.catalogue = Catalogue(workers=1)
        self.steps = 0
        self.sweeps = 0

    def ask(self, request):
        reply = self._ask_once(request)
        if reply is not Reply.NO_ROOM:
            return reply
        self.catalogue.sweep()
        self.sweeps += 1
        return self._ask_once(request)

    def _ask_once(self, request):
        call = self.catalogue.take_up(0, request)
        reply = call.finish()
        self.steps += call.steps
        return reply


class DictGraph:
    """A graph as a dictionary of sets, with networkx's names for what it does."""

    def __init__(self):
        self.after = {}

    def has_node(self, node):
        return node in self.after

    def add_node(self, node):
        self.after[node] = set()

    def remove_node(self, node):
        del self.after[node]
        for others in self.after.values():
            others.discard(node)

    def has_edge(self, source, target):
        return target in self.after.get(source, ())

    def add_edge(self, source, target):
        self.after[source].add(target)

    def remove_edge(self, source, target):
        self.after[source].remove(target)


def dict_has_path(graph, source, target):
    """Whether a depth-first search from the source reaches the target."""
    seen = {source}
    waiting = [source]
    while waiting:
        node = waiting.pop()
        if node == target:
            return True
        new = graph.after[node] - seen
        seen |= new
        waiting += new
    return False


class Plain:
    """A plain graph that searches for a way back before it adds an edge."""

    def __init__(self, name, graph, has_path):
        self.name = name
        self.graph = graph
        self.has_path = has_path

    def ask(self, request):
        if isinstance(request, (AddSeries, RemoveSeries, HasSeries)):
            return self._ask_series(type(request), request.series)
        return self._ask_derivation(type(request), request.source, request.derived)

    def _ask_series(self, kind, series):
        if self.graph.has_node(series) == (kind is AddSeries):
            return Reply.SERIES_NOT_SO
        if kind is AddSeries:
            self.graph.add_node(series)
        elif kind is RemoveSeries:
            self.graph.remove_node(series)
        return Reply.DONE

    def _ask_derivation(self, kind, source, derived):
        there = self.graph.has_edge(source, derived)
        if kind is HasDerivation:
            return Reply.DONE if there else Reply.SERIES_OR_DERIVATION_NOT_PRESENT
        if not (self.graph.has_node(source) and self.graph.has_node(derived)):
            return Reply.SERIES_NOT_PRESENT
        if kind is AddDerivation:
            return self._add_derivation(source, derived, there)
        if not there:
            return Reply.DERIVATION_NOT_PRESENT
        self.graph.remove_edge(source, derived)
        return Reply.DONE

    def _add_derivation(self, source, derived, there):
        if there:
            return Reply.DERIVATION_ALREADY_PRESENT
        if self.has_path(self.graph, derived, source):
            return Reply.WOULD_CLOSE_LOOP
        self.graph.add_edge(source, derived)
        return Reply.DONE


def sides():
    """The sides to compare, the catalogue first."""
    found = [Proved()]
    if networkx is not None:
        name = f"networkx {networkx.__version__}"
        found.append(Plain(name, networkx.DiGraph(), networkx.has_path))
    found.append(Plain("dictionary", DictGraph(), dict_has_path))
    return found


def wanted_derivations(source, series):
    """Derivations that go one way along a row of the series, so that they close no loop."""
    wanted = set()
    while len(wanted) < DERIVATIONS:
        first, second = sorted(source.sample(range(len(series)), 2))
        wanted.add((series[first], series[second]))
    return sorted(wanted)


def day(source, series, derivations, count):
    """A mix of requests, of which one derivation in ten goes the wrong way."""
    kinds = source.choices(list(MIX), list(MIX.values()), k=count)
    for kind in kinds:
        if kind in (AddSeries, RemoveSeries, HasSeries):
            yield kind(source.choice(series))
        else:
            pair = source.choice(derivations)
            yield kind(*(pair[::-1] if source.random() < 0.1 else pair))


def timed(side, requests):
    """The replies, and how many seconds of processor time they took."""
    began = time.process_time()
    replies = [side.ask(request) for request in requests]
    return replies, time.process_time() - began


def compare(title, compared, requests):
    """Makes the requests to each side, prints the times, and returns the catalogue's."""
    print(f"{title}: {len(requests)} requests")
    expected, own = timed(compared[0], requests)
    print_time(compared[0], own, own, len(requests))
    for side in compared[1:]:
        replies, seconds = timed(side, requests)
        assert replies == expected, f"{side.name} gives other replies"
        print_time(side, seconds, own, len(requests))
    counts = Counter(reply.name for reply in expected)
    print("  all replies agree:", ", ".join(f"{name} {n}" for name, n in counts.most_common()))
    return own


def print_time(side, seconds, own, count):
    """Prints a line of the table; its last number is the catalogue's time over this side's."""
    each = seconds / count * 1e6
    print(f"  {side.name:18}{seconds:9.3f} s {each:9.1f} us each   ratio {own / seconds:8.2f}")


def main():
    parser = argparse.ArgumentParser(description="Compares the catalogue with plain graphs.")
    parser.add_argument("--requests", type=int, default=5000)
    parser.add_argument("--seed", type=int, default=1)
    options = parser.parse_args()
    source = random.Random(options.seed)
    series = source.sample(range(-1000, 1000), SERIES)
    derivations = wanted_derivations(source, series)
    build = [AddSeries(key) for key in series] + [AddDerivation(*pair) for pair in derivations]
    requests = list(day(source, series, derivations, options.requests))
    compared = sides()
    if networkx is None:
        print("networkx is not installed for this Python: compared with the dictionary alone")
    print("ratio: the catalogue's time divided by that of the line")
    seconds = compare("build", compared, build) + compare("day", compared, requests)
    proved = compared[0]
    listing = proved.catalogue.listing()
    print(f"at the end: {len(listing.series)} series, {len(listing.derivations)} derivations")
    print(f"catalogue: {proved.steps} steps, {proved.steps / seconds:,.0f} steps per second, "
          f"{proved.sweeps} sweeps")


if __name__ == "__main__":
    main()
