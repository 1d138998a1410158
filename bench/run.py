#!/usr/bin/env python3
"""Runs `pbgl` on big files, beside the same jobs by a short C++ program over Boost.Graph, and `pg_bench`, which reads a
file of the greatest size and divides its graph among ranks, relaxes over them, lets ranks send each other messages, and
synchronizes a property map. `pg_queues` sends messages through one lane.

    python3 bench/run.py [--only bfs|algorithms|forest|colour|delta|grid|divide|lane|traffic|cells] [--vertices N] [--edges M]
                         [--rounds K] [--beside PROGRAM]

Without --vertices and --edges the files have the sizes that are told here; with --vertices alone, eight edges a vertex.

bfs: the files have 1,000,000 vertices, one with 8,000,000 edges by a seeded rule and one in a row. For each
program the least of three interleaved runs counts: seconds for the whole, megabytes of the file a second, peak
memory. Both write one line a system call, to the null device. Boost.Graph is Debian's libboost-graph-dev;
where it or g++ is missing that program is skipped. The outputs are compared once.

algorithms: `pbgl` runs breadth-first search, least weights and components on three files: 1,048,576 vertices and 8,388,608
edges by the seeded rule, an R-MAT graph of as many vertices and draws, and a grid of 1,000 by 1,000, each with weights from
1 to 4,096. For 1, 2 and 4 ranks on as many threads, and for Boost.Graph's own algorithm on one thread, the least of three
interleaved runs counts: seconds for the whole and peak memory; then milliseconds of each phase by itself, which `pg_bench`
tells of the same run without the writing, and its messages, the offers among them, and the ghosts. The outputs are compared
once for each file and algorithm.

forest: `pbgl forest` runs on the same files, for 1, 2 and 4 ranks on as many threads, beside Boost.Graph's algorithms of
Kruskal and of Prim, which print the total alone. What counts and what is told is as above, but for the last counts:
messages, the items among them, and the edges of the forest. The totals are compared once for each file; Prim's isn't, since
it is that of vertex 1's component.

colour: `pbgl colour` runs on the same files as often, beside Boost.Graph's sequential colouring in ascending order. The last
counts are messages, the items among them, and the colours. The text of one rank is compared with Boost.Graph's; more ranks
may colour otherwise.

delta: `pbgl sssp` runs on the same files with buckets of seven widths, on 1 and on 4 ranks with as many threads. For each
the least of three interleaved runs counts, as above. What takes more than 60 seconds is cut off.

grid: `pbgl grid` makes a grid of 1,024 by 1,024 by the seed 1, or of so many columns and rows that it has about as many vertices
as are told, and runs every algorithm over it, on 1, 2 and 4 ranks with as many threads. The least of three interleaved runs counts:
seconds for the whole and peak memory. The summaries are compared once.

divide: one file has 1,048,576 vertices and 8,388,608 edges by the seeded rule, the other is a band of as many vertices, each
joined to the next eight. For each number of ranks and each layout the least of three interleaved runs counts: milliseconds
of reading and of dividing, peak memory, and the memory beside the edge list (12 bytes an edge) and the arcs (40 bytes an
edge).

lane: 4,096,000 numbered messages go through one queue, from one thread to another and on one thread, which fills the queue
and empties it in turn: through a lane of 1,024 and of 4 messages, and through the kit's `rtrb` and `crossbeam_queue` of the
same capacities. For each the least of three interleaved runs counts: messages a second.

traffic: in each round every rank sends one item and one mark to every other; a run on the caller's thread sends about
16 million messages. For each number of ranks the least of three interleaved runs counts: messages a second. With --beside
another built `pg_bench`, as one of an earlier commit, runs in between.

cells: the file has 1,000,000 vertices and 8,000,000 edges by the seeded rule, and 4 ranks have it in blocks. A value is
put to each cell of each rank, own vertex or ghost, and the map is synchronized with forward and backward, on the caller's
thread. The least of three runs counts: cells a second of filling and synchronizing together.
"""
import argparse, math, os, re, subprocess, sys, tempfile, time

HERE = os.path.dirname(os.path.abspath(__file__))
TOP = os.path.dirname(HERE)
# As bin/pbgl asks, for the programs beside pbgl too: long lists stand in pages of 2 MiB where the system gives them.
os.environ.setdefault("GLIBC_TUNABLES", "glibc.malloc.hugetlb=1")
LIMIT = 60  # Seconds; a program that prints for longer is cut off, and not measured.


def compiled(source, folder):
    """The program made of this source, or None where it cannot be made."""
    program = os.path.join(folder, os.path.splitext(source)[0])
    made = subprocess.run(["g++", "-O2", "-std=c++17", "-o", program, os.path.join(HERE, source)],
                          stderr=subprocess.PIPE, text=True)
    return program if made.returncode == 0 else None


def measured(words, wanted=0):
    """Seconds and peak megabytes of one run, which ends with the status wanted."""
    seconds, memory, _ = phased(words, wanted)
    return seconds, memory


def phased(words, wanted=0):
    """Seconds and peak megabytes of one run, which ends with the status wanted, and the milliseconds that it told."""
    began = time.monotonic()
    child = subprocess.Popen(words, stdout=subprocess.DEVNULL, stderr=subprocess.PIPE, text=True)
    times = child.stderr.read()
    _, status, usage = os.wait4(child.pid, 0)
    seconds = time.monotonic() - began
    if os.waitstatus_to_exitcode(status) != wanted:
        sys.exit("%s ended with %d: %s" % (" ".join(words), os.waitstatus_to_exitcode(status), times))
    return seconds, usage.ru_maxrss / 1024, milliseconds(times)


def milliseconds(times):
    return [int(time) for time in re.findall(r"(\d+) ms", times)]


def printed(words):
    """What the program prints, or None where it is cut off."""
    try:
        return subprocess.run(words, stdout=subprocess.PIPE, stderr=subprocess.DEVNULL, check=True, timeout=LIMIT).stdout
    except subprocess.TimeoutExpired:
        return None


def whole_text(program, text):
    return text


def compare(name, programs, compared=whole_text):
    """The programs that were not cut off. Ends all where what is compared of their texts, if not None, differs."""
    texts = {program: printed(words) for program, words in programs.items()}
    ended = [program for program, text in texts.items() if text is not None]
    if len({compared(program, texts[program]) for program in ended} - {None}) > 1:
        sys.exit("the programs print different texts for " + name)
    return ended


def report(name, file, programs, rounds):
    size = os.path.getsize(file) / 1e6
    compare(name, programs)
    best = {}
    for _ in range(rounds):
        for program, words in programs.items():
            best[program] = min(best.get(program, (1e9, 0)), measured(words))
    for program, (seconds, memory) in best.items():
        print("%-8s %-6s %7.2f s %7.1f MB/s %7.0f MB" % (name, program, seconds, size / seconds, memory))
    if "boost" in best:
        print("%-8s ratio of pbgl to boost: %.2f" % (name, best["pbgl"][0] / best["boost"][0]))


def built(crate):
    """The program of this crate, proved and built where it isn't current."""
    folder = os.path.join(TOP, "crates", crate)
    subprocess.run(["rt", "run", "--"], cwd=folder, stdout=subprocess.DEVNULL, stderr=subprocess.DEVNULL)
    program = os.path.join(folder, "out", crate)
    if not os.path.exists(program):
        sys.exit("%s could not be built: run `rt run` in %s" % (crate, folder))
    return program


def timed(words):
    """The milliseconds that the run told, its peak megabytes, and what it printed."""
    child = subprocess.Popen(words, stdout=subprocess.PIPE, stderr=subprocess.PIPE, text=True)
    times, counts = child.stderr.read(), child.stdout.read()
    _, status, usage = os.wait4(child.pid, 0)
    if status != 0:
        sys.exit("%s ended with %d: %s" % (" ".join(words), status, times))
    return milliseconds(times), usage.ru_maxrss * 1024 / 1e6, counts.strip()


def report_divisions(name, file, program, rounds):
    with open(file, encoding="ascii") as handle:
        edges = int(handle.readline().split()[1])
    best = {}
    for _ in range(rounds):
        for ranks in (1, 4, 32):
            for layout in ("block", "random"):
                (reading, dividing), memory, counts = timed([program, file, str(ranks), layout])
                was = best.get((ranks, layout), (reading, dividing))
                best[ranks, layout] = min(reading, was[0]), min(dividing, was[1]), memory, counts
    for (ranks, layout), (reading, dividing, memory, counts) in best.items():
        print("%-6s %2d %-6s reading %5d ms, dividing %5d ms, %4.0f MB, %4.0f MB beside; %s"
              % (name, ranks, layout, reading, dividing, memory, memory - 52e-6 * edges, counts))


def report_traffic(programs, rounds):
    best = {}
    for _ in range(rounds):
        for ranks in (2, 4, 8):
            turns = 16_000_000 // (2 * ranks * (ranks - 1))
            for name, program in programs.items():
                (running,), _, counts = timed([program, "traffic", str(ranks), str(turns)])
                best[ranks, name] = min(best.get((ranks, name), (running, counts)), (running, counts))
    for (ranks, name), (running, counts) in best.items():
        print("%2d ranks %s in %5d ms, %.1f million a second%s"
              % (ranks, counts, running, int(counts.split()[0]) / max(running, 1) / 1000, name))


def report_lane(program, rounds):
    messages, best = 4_096_000, {}
    for _ in range(rounds):
        for capacity in (1024, 4):
            for kind in ("lane", "rtrb", "crossbeam"):
                (two, one), _, counts = timed([program, kind, str(capacity), str(messages)])
                if counts != "%d and %d in order" % (messages, messages):
                    sys.exit("%s of %d: %s" % (kind, capacity, counts))
                was = best.get((capacity, kind), (two, one))
                best[capacity, kind] = min(two, was[0]), min(one, was[1])
    for (capacity, kind), times in best.items():
        print("%-9s of %4d: %5.1f million a second between two threads, %5.1f on one"
              % ((kind, capacity) + tuple(messages / max(time, 1) / 1000 for time in times)))


def report_cells(file, program, rounds):
    best = None
    for _ in range(rounds):
        (running,), memory, counts = timed([program, "cells", file, "4"])
        best = min(best or (running, memory, counts), (running, memory, counts))
    running, memory, counts = best
    print(" 4 ranks %s in %5d ms, %.1f million a second, %4.0f MB"
          % (counts, running, int(counts.split()[0]) / max(running, 1) / 1000, memory))


def least(old, new):
    """The least of each number of two runs."""
    return new if old is None else [min(a, b) for a, b in zip(old, new)]


def whole_and_phases(program, phases):
    """The numbers of one run of a program, and the counts of the run that tells its phases."""
    seconds, memory, times = phased(program)
    if phases is None:
        return [seconds, memory] + times, ""
    times, _, counts = timed(phases)
    return [seconds, memory] + times, "; " + counts


def report_phases(name, runs, rounds, compared=whole_text):
    """Each run has the words of a program, and those of one that tells its phases, or None where it does so itself."""
    ended = compare(name, {run: program for run, (program, _) in runs.items()}, compared)
    best, counted = {}, {}
    for _ in range(rounds):
        for run in ended:
            numbers, counted[run] = whole_and_phases(*runs[run])
            best[run] = least(best.get(run), numbers)
    for run, (seconds, memory, reading, building, running) in best.items():
        print("%-18s %-12s %7.2f s %5.0f MB; %5d ms reading, %5d ms building, %6d ms running%s"
              % (name, run, seconds, memory, reading, building, running, counted[run]), flush=True)
    for run in runs:
        if run not in best:
            print("%-18s %-12s more than %d s" % (name, run, LIMIT), flush=True)


def made(make, folder, words):
    """The graph file that these words make, made where it isn't there."""
    file = os.path.join(folder, "_".join(words) + ".graph")
    if not os.path.exists(file):
        with open(file, "wb") as handle:
            subprocess.run([make] + words, stdout=handle, check=True)
    return file


def built_pbgl():
    """The program `pbgl`, proved and built where it isn't current."""
    subprocess.run([os.path.join(TOP, "bin", "pbgl"), "bfs", os.path.join(TOP, "examples", "mesh.graph"),
                    "--source", "1"], stdout=subprocess.DEVNULL, check=True)
    return os.path.join(TOP, "crates", "pbgl", "out", "pbgl")


def searches(make, folder, given):
    pbgl, boost = built_pbgl(), compiled("algorithms_boost.cpp", folder)
    vertices, edges = sizes(given, 1_000_000)
    for name, words in {"random": ["random", vertices, edges, "1"], "path": ["band", vertices, "1"]}.items():
        file = made(make, folder, words)
        programs = {"pbgl": [pbgl, "bfs", file, "--source", "1"]}
        if boost is not None:
            programs["boost"] = [boost, "bfs", file, "1"]
        report(name, file, programs, given.rounds)


def weighted_graphs(make, folder, given):
    """The three files of the algorithms, by their names."""
    vertices, edges = sizes(given, 1 << 20)
    side, scale = str(math.isqrt(given.vertices or 1_000_000)), str(int(vertices).bit_length() - 1)
    kinds = {"random": ["random", vertices, edges], "rmat": ["rmat", scale, edges], "grid": ["grid", side, side]}
    return {name: made(make, folder, words + ["1", "4096"]) for name, words in kinds.items()}


def over_ranks(file, algorithm, ranks, delta=None):
    """The words of `pbgl` and of `pg_bench` for an algorithm on so many ranks and threads, without the programs' names."""
    source = ["--source", "1"] if algorithm in ("bfs", "sssp") else []
    width = [] if delta is None else ["--delta", str(delta)]
    whole = [algorithm, file] + source + width + ["--ranks", str(ranks), "--threads", str(ranks)]
    named = [algorithm, file] if algorithm in ("forest", "colour") else ["relax", file, algorithm]
    return whole, named + [str(ranks), str(ranks)] + width[1:]


def on_crews(pbgl, pg_bench, file, algorithm):
    """The runs of an algorithm on 1, 2 and 4 ranks with as many threads."""
    runs = {}
    for ranks in (1, 2, 4):
        whole, phases = over_ranks(file, algorithm, ranks)
        runs["%d rank%s" % (ranks, "s"[:ranks - 1])] = [pbgl] + whole, [pg_bench] + phases
    return runs


def algorithms(make, folder, given):
    pbgl, pg_bench, boost = built_pbgl(), built("pg_bench"), compiled("algorithms_boost.cpp", folder)
    for name, file in weighted_graphs(make, folder, given).items():
        for algorithm in ("bfs", "sssp", "components"):
            runs = on_crews(pbgl, pg_bench, file, algorithm)
            if boost is not None:
                runs["boost"] = [boost, algorithm, file] + ["1"] * (algorithm != "components"), None
            report_phases(name + " " + algorithm, runs, given.rounds)


def total_line(run, text):
    """The last line of a forest, or None for Prim's, whose total is of one component."""
    return None if run == "prim" else text.splitlines()[-1]


def forests(make, folder, given):
    pbgl, pg_bench, boost = built_pbgl(), built("pg_bench"), compiled("algorithms_boost.cpp", folder)
    for name, file in weighted_graphs(make, folder, given).items():
        runs = on_crews(pbgl, pg_bench, file, "forest")
        if boost is not None:
            runs["kruskal"] = [boost, "kruskal", file], None
            runs["prim"] = [boost, "prim", file], None
        report_phases(name + " forest", runs, given.rounds, total_line)


def first_fit(run, text):
    """The colours of a run that goes through all vertices in ascending order, or None for others."""
    return text if run in ("1 rank", "boost") else None


def colours(make, folder, given):
    pbgl, pg_bench, boost = built_pbgl(), built("pg_bench"), compiled("algorithms_boost.cpp", folder)
    for name, file in weighted_graphs(make, folder, given).items():
        runs = on_crews(pbgl, pg_bench, file, "colour")
        if boost is not None:
            runs["boost"] = [boost, "colour", file], None
        report_phases(name + " colour", runs, given.rounds, first_fit)


def deltas(make, folder, given):
    pbgl, pg_bench = built_pbgl(), built("pg_bench")
    for name, file in weighted_graphs(make, folder, given).items():
        for ranks in (1, 4):
            runs = {}
            for delta in (1, 8, 32, 128, 1024, 4096, 65536):
                whole, phases = over_ranks(file, "sssp", ranks, delta)
                runs["delta %d" % delta] = [pbgl] + whole, [pg_bench] + phases
            report_phases("%s on %d" % (name, ranks), runs, given.rounds)


def grids(make, folder, given):
    side = str(math.isqrt(given.vertices or 1 << 20))
    words = [built_pbgl(), "grid", "--width", side, "--height", side, "--seed", "1"]
    runs = {ranks: words + ["--ranks", str(ranks)] for ranks in (1, 2, 4)}
    compare("grid", runs)
    best = {}
    for _ in range(given.rounds):
        for ranks, run in runs.items():
            best[ranks] = least(best.get(ranks), measured(run))
    for ranks, (seconds, memory) in best.items():
        print("grid of %s by %s, %d ranks %7.2f s %5.0f MB" % (side, side, ranks, seconds, memory), flush=True)


def divisions(make, folder, given):
    vertices, edges = str(1 << 20), str(1 << 23)
    for name, words in {"random": ["random", vertices, edges, "1"], "band": ["band", vertices, "8"]}.items():
        report_divisions(name, made(make, folder, words), built("pg_bench"), given.rounds)


def maps(make, folder, given):
    file = made(make, folder, ["random", *sizes(given, 1_000_000), "1"])
    report_cells(file, built("pg_bench"), given.rounds)


def sizes(given, usual):
    """The words of how many vertices and edges a file has; so many vertices, and eight edges each, where it isn't told."""
    vertices = given.vertices or usual
    return str(vertices), str(given.edges or 8 * vertices)


GRAPH_JOBS = {"bfs": searches, "algorithms": algorithms, "forest": forests, "colour": colours, "delta": deltas,
              "grid": grids, "divide": divisions, "cells": maps}


def main():
    parser = argparse.ArgumentParser(description=__doc__, formatter_class=argparse.RawDescriptionHelpFormatter)
    parser.add_argument("--vertices", type=int)
    parser.add_argument("--edges", type=int)
    parser.add_argument("--rounds", type=int, default=3)
    parser.add_argument("--only", choices=["lane", "traffic", *GRAPH_JOBS])
    parser.add_argument("--beside")
    given = parser.parse_args()
    if given.only in (None, "lane"):
        report_lane(built("pg_queues"), given.rounds)
    if given.only in (None, "traffic"):
        programs = {"": built("pg_bench")}
        if given.beside:
            programs[" beside"] = given.beside
        report_traffic(programs, given.rounds)
    if given.only in ("lane", "traffic"):
        return
    with tempfile.TemporaryDirectory() as folder:
        make = compiled("make_graph.cpp", folder)
        if make is None:
            sys.exit("g++ is missing: no file to measure on")
        for name, job in GRAPH_JOBS.items():
            if given.only in (None, name):
                job(make, folder, given)


if __name__ == "__main__":
    main()
