"""Measures networkx's node_disjoint_paths on the first questions of a file.

usage: networkx_peer.py FILE COUNT    nanoseconds per query (the best of three passes), and all
                                      paths found

Each query builds its graph from the table, as a user of networkx would.
"""

import sys
import time

import networkx

PASSES = 3


def read_questions(name, count):
    with open(name, "rb") as file:
        data = file.read()
    questions, place = [], 0
    while place < len(data) and len(questions) < count:
        radios, source, destination, wanted = data[place : place + 4]
        table = data[place + 4 : place + 4 + radios * radios]
        questions.append((radios, source, destination, wanted, table))
        place += 4 + radios * radios
    return questions


def number_of_paths(question):
    radios, source, destination, wanted, table = question
    graph = networkx.Graph()
    graph.add_nodes_from(range(radios))
    for lower in range(radios):
        for upper in range(lower + 1, radios):
            if table[lower * radios + upper]:
                graph.add_edge(lower, upper)
    # No path leads over a handheld, which passes nothing on.
    inner = set(range(radios)) - {source, destination}
    graph.remove_nodes_from(radio for radio in inner if table[radio * radios + radio])
    try:
        return len(list(networkx.node_disjoint_paths(graph, source, destination, cutoff=wanted)))
    except networkx.NetworkXNoPath:
        return 0


def main():
    if len(sys.argv) != 3:
        sys.exit(__doc__)
    questions = read_questions(sys.argv[1], int(sys.argv[2]))
    # A single small question is asked many times, or the clock would be most of what is measured.
    repeats = max(1, 20 // len(questions))
    best, paths = None, 0
    for _ in range(PASSES):
        started = time.perf_counter_ns()
        for _ in range(repeats):
            paths = sum(number_of_paths(question) for question in questions)
        took = (time.perf_counter_ns() - started) / (repeats * len(questions))
        best = took if best is None else min(best, took)
    print(f"{best:.0f} {paths}")


main()
