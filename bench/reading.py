#!/usr/bin/env python3
"""Measures how fast graph files are read, beside three C++ programs.

    python3 bench/reading.py [--vertices N] [--edges M] [--rounds K]

`pbgl bfs FILE --source 0` reads the whole file, holds every edge against its mirror, makes the list of edges, and then
refuses the source; so its time is that of reading. The C++ programs read the same file by Boost.Graph's own METIS
reader, by an istream, and by a scan by hand; they take each line as it stands. The files have 1,048,576 vertices and
8,388,608 edges by a seeded rule, without and with weights of edges. Of each program the least of the interleaved runs
counts: seconds, megabytes of the file a second, peak memory. Boost.Graph is Debian's libboost-graph-dev.

`pbgl` takes a line twice where its neighbours don't ascend; so it is told how many lines of each file do not.
"""
import argparse, os, subprocess, sys, tempfile
from run import HERE, TOP, compiled, measured


def lines_read_twice(file):
    """How many lines of vertices have neighbours that don't ascend, and how many there are."""
    with open(file, "rb") as handle:
        lines = (line.split() for line in handle if not line.startswith(b"%"))
        header = next(lines)
        sizes, weights, edge_weights = (header[2] if len(header) > 2 else b"0").rjust(3, b"0")
        begin = (sizes == ord("1")) + (weights == ord("1")) * max(int(header[3]) if len(header) > 3 else 1, 1)
        step, count, twice = 1 + (edge_weights == ord("1")), int(header[0]), 0
        for _, words in zip(range(count), lines):
            neighbours = [int(word) for word in words[begin::step]]
            twice += any(later <= earlier for earlier, later in zip(neighbours, neighbours[1:]))
    return twice, count


def main():
    parser = argparse.ArgumentParser(description=__doc__, formatter_class=argparse.RawDescriptionHelpFormatter)
    parser.add_argument("--vertices", type=int, default=1_048_576)
    parser.add_argument("--edges", type=int, default=8_388_608)
    parser.add_argument("--rounds", type=int, default=3)
    given = parser.parse_args()
    subprocess.run([os.path.join(TOP, "bin", "pbgl"), "bfs", os.path.join(TOP, "examples", "mesh.graph"),
                    "--source", "1"], stdout=subprocess.DEVNULL, check=True)
    pbgl = os.path.join(TOP, "crates", "pbgl", "out", "pbgl")
    with tempfile.TemporaryDirectory() as folder:
        make, read = compiled("make_graph.cpp", folder), compiled("read_metis.cpp", folder)
        if make is None or read is None:
            sys.exit("g++ or Boost.Graph is missing: nothing to measure with")
        for kind in ["random", "weighted"]:
            file = os.path.join(folder, kind + ".graph")
            with open(file, "wb") as handle:
                subprocess.run([make, kind, str(given.vertices), str(given.edges), "1"], stdout=handle, check=True)
            print("%-8s %d of %d lines are read twice" % ((kind,) + lines_read_twice(file)))
            programs = {way: ([read, way, file], 0) for way in ["boost", "stream", "scan"]}
            programs["pbgl"] = ([pbgl, "bfs", file, "--source", "0"], 8)
            size = os.path.getsize(file) / 1e6
            best = {}
            for _ in range(given.rounds):
                for name, (words, status) in programs.items():
                    best[name] = min(best.get(name, (1e9, 0)), measured(words, status))
            for name, (seconds, memory) in best.items():
                print("%-8s %5.0f MB  %-6s %7.2f s %7.1f MB/s %7.0f MB" % (kind, size, name, seconds, size / seconds, memory))


if __name__ == "__main__":
    main()
