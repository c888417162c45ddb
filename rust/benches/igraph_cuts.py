#!/usr/bin/python3
"""igraph's all_st_cuts beside this library's list call, each cable as two arcs, and whether both list
the same: each cut with its near side. No part of the gate.

Both are called from Python, and a figure is the median over the calls: igraph, the library straight
after it, when nothing of the library is left in the processor's caches, and the library once more.
igraph makes Python lists of its rows, the library leaves its own in the memory lent. It needs Debian's
python3-igraph, the library as a shared object, and the plans that the benchmark prints:

gcc -shared -o cutlist.so -Wl,-Bsymbolic -Wl,--whole-archive libcapi.a -Wl,--no-whole-archive
cargo bench --offline -- --plans | benches/igraph_cuts.py ./cutlist.so [SECONDS]

A hall on which igraph does not end within so many seconds, otherwise 60, is left out. It ends with 1
if the lists differ anywhere or anything but igraph fails, and with 2 if nothing was compared.
"""

import ctypes
import multiprocessing
import platform
import statistics
import sys
import time

try:
    import igraph
except ImportError as missing:
    print(missing, file=sys.stderr)
    sys.exit(2)

SLOTS = 64

# The most rows that are lent.
MOST = 1 << 21

# The seconds that igraph's calls on a hall may take, but for the first, and the most calls.
BUDGET = 2
CALLS = 101

# What is said of a hall once igraph has answered: what fails from there on is no fault of igraph's.
ANSWERED = "answered"


class Plan:
    """A plan record, read by the library."""

    def __init__(self, library, plan):
        self.library = library
        self.nodes, self.source, self.sink = (ctypes.c_uint8() for _ in range(3))
        self.present = ctypes.c_uint64()
        self.first, self.second = ((ctypes.c_uint8 * SLOTS)() for _ in range(2))
        self.metres = (ctypes.c_uint16 * SLOTS)()
        refusal = library.cutlist_decode(
            plan, ctypes.c_size_t(len(plan)),
            *map(ctypes.byref, (self.nodes, self.source, self.sink, self.present)),
            self.first, self.second, self.metres)
        assert refusal == 0, plan.hex()
        self.fields = (self.nodes, self.source, self.sink, self.present,
                       self.first, self.second, self.metres)

    def edges(self):
        return members(self.present.value)

    def useful(self):
        """The useful points."""
        nodes, edges = ctypes.c_uint64(), ctypes.c_uint64()
        refusal = self.library.cutlist_relevant(
            *self.fields, ctypes.byref(nodes), ctypes.byref(edges))
        assert refusal == 0
        return nodes.value

    def lend(self, rows):
        """The list call with so many rows lent: it gives the cuts and the sides."""
        cuts, sides = ((ctypes.c_uint64 * rows)() for _ in range(2))
        count, length = ctypes.c_size_t(), ctypes.c_size_t(rows)
        arguments = (*self.fields, cuts, length, sides, length, ctypes.byref(count))

        def call():
            refusal = self.library.cutlist_list(*arguments)
            assert refusal == 0, f"refusal {refusal}"
            return cuts, sides, count.value
        return call

    def graph(self):
        """The plan in igraph: cable k of those present is the arcs 2k and 2k + 1."""
        arcs = []
        for edge in self.edges():
            one, other = self.first[edge], self.second[edge]
            arcs += [(one, other), (other, one)]
        return igraph.Graph(n=self.nodes.value, edges=arcs, directed=True)


def members(number):
    return [member for member in range(64) if number >> member & 1]


def weight(some):
    return sum(1 << member for member in some)


def peer_rows(plan, cuts, sides):
    """What igraph listed, as the library would: cables for arcs, and the useful points of each side,
    since igraph's sides hold the points that hang on theirs alone too."""
    edges, useful = plan.edges(), plan.useful()
    return [(weight(edges[arc // 2] for arc in cut), weight(side) & useful)
            for cut, side in zip(cuts, sides)]


def compare(plan, rows, listed):
    """Why the lists cannot be compared, if so. They must be the same."""
    if rows == [(0, 1 << plan.source.value)] and not listed:
        return "no route: igraph lists nothing, the library one empty cut"
    if sorted(listed) != rows:
        raise AssertionError("the lists differ")


def median_times(peer, own, spent):
    """The median times of igraph, of the library straight after it and of the library once more. A call
    of igraph that took as long as all may take is the only one."""
    times = [[timed(call)[1] for call in (peer, own, own)]
             for _ in range(min(CALLS, int(BUDGET / spent)))]
    times = times or [[spent, timed(own)[1], timed(own)[1]]]
    return [statistics.median(column) for column in zip(*times)]


def timed(call):
    """What the call gives, and the time that it had the processor."""
    start = time.thread_time()
    result = call()
    return result, time.thread_time() - start


def of_hall(library, data, is_timed):
    """First the number of rows; then that igraph has answered; then the times, and why the lists are not
    compared."""
    plan = Plan(library, data)
    cuts, sides, count = plan.lend(MOST if is_timed else 1 << plan.nodes.value)()
    rows = list(zip(cuts[:count], sides[:count]))
    own = plan.lend(count)
    yield count

    graph, source, sink = plan.graph(), plan.source.value, plan.sink.value
    # Straight from igraph's core, without the object that Graph.all_st_cuts makes of each cut.
    peer = lambda: igraph.GraphBase.all_st_cuts(graph, source, sink)
    answer, spent = timed(peer)
    yield ANSWERED
    reason = compare(plan, rows, peer_rows(plan, *answer))
    del answer
    times = median_times(peer, own, spent) if is_timed else [0, 0, 0]
    yield *times, reason


def in_time(limit, job, *arguments):
    """What the job gives one after the other in a process of its own, and then why it gave no more, if
    it was broken off."""
    def run(end):
        try:
            for given in job(*arguments):
                end.send(given)
        except Exception as complaint:
            end.send(repr(complaint))
        end.send(None)
    context = multiprocessing.get_context("fork")
    here, there = context.Pipe(duplex=False)
    child = context.Process(target=run, args=(there,))
    child.start()
    there.close()
    last = time.monotonic() + limit
    try:
        while here.poll(max(0, last - time.monotonic())):
            given = here.recv()
            if given is None:
                return
            yield given
        yield "does not end"
    except EOFError:
        yield "breaks off"
    finally:
        child.kill()
        child.join()


def main():
    if len(sys.argv) not in (2, 3):
        print(__doc__, file=sys.stderr)
        return 2
    try:
        library = ctypes.CDLL(sys.argv[1])
        for call in library.cutlist_decode, library.cutlist_relevant, library.cutlist_list:
            call.restype = ctypes.c_uint8
    except (OSError, AttributeError) as missing:
        print(missing, file=sys.stderr)
        return 2
    limit = float(sys.argv[2]) if len(sys.argv) == 3 else 60

    print(f"igraph {igraph.__version__}, Python {platform.python_version()}")
    print(f"{'hall':<32} {'rows':>8} {'igraph':>9} {'library':>9} {'ratio':>6} {'again':>9} {'ratio':>6}")
    print(f"{'us/row':>51} {'us/row':>9} {'us/row':>16}")
    faults, compared, same, apart = 0, 0, 0, 0
    for line in sys.stdin:
        data, _, name = line.strip().partition(" ")
        match list(in_time(limit, of_hall, library, bytes.fromhex(data), bool(name))):
            case [rows, _, (peer, first, again, None)] if name:
                compared += 1
                text = f"{peer / rows * 1e6:>9.2f}" + "".join(
                    f" {own / rows * 1e6:>9.3f} {peer / own:>6.0f}" for own in (first, again))
            case [rows, _, (_, _, _, reason)]:
                same += not name and not reason
                apart += not name and bool(reason)
                text = reason
            case [rows, ("breaks off" | "does not end") as reason] if name:
                text = f"igraph {reason}"
            case other:
                faults += 1
                name, rows, text = name or data, "", f"FAULT: {other[-1]}"
        if name:
            print(f"{name:<32} {rows:>8} {text}", flush=True)
    print(f"The same lists on {compared} halls and {same} small random plans; {apart} more have no route.")
    if not compared + same + faults:
        print("No lists were compared.", file=sys.stderr)
        return 2
    if faults:
        print(f"The lists differ, or something else failed, on {faults} plans.", file=sys.stderr)
        return 1
    return 0


if __name__ == "__main__":
    sys.exit(main())
