#!/usr/bin/env python3
"""Measures every algorithm of `pbgl` on a random graph, an R-MAT graph and a grid, on 1, 2 and 4 ranks with a thread each,
beside a scan by hand (`tuned.cpp`), and writes docs/TIMES.md and docs/times.svg.

    python3 bench/table.py [--vertices N] [--edges M] [--rounds K] [--ranks P,P..] [--print]

The files are those of `run.py`: without --vertices and --edges two of 1,048,576 vertices and about 8,388,608 edges, and a
grid of 1,000 by 1,000, with weights from 1 to 4,096. For each algorithm and number of ranks the least of three interleaved
runs counts: the whole run of `pbgl` in seconds and its peak memory in megabytes; the phases of reading, of building (the
division, and each rank's program) and of running, as `pg_bench` gives them. The scan holds each edge against its mirror as
`pbgl` does, runs on one thread and writes 64 KiB at once. What writing the same text a line a system call costs is measured
by itself, since `pbgl` writes so: a ratio is the whole run less that, divided by the scan's. There is no scan for forests and
colours. All of them ask for pages of 2 MiB, as `bin/pbgl` does (`run.py`). With --print nothing is written, and the page goes to standard output.
"""
import argparse, datetime, os, subprocess, sys, tempfile

from run import HERE, TOP, built, built_pbgl, compiled, least, over_ranks, phased, timed, weighted_graphs

PHASES = ["reading", "building", "running"]
COLOURS = ["#4e79a7", "#f28e2b", "#59a14f", "#bab0ac"]
ALGORITHMS = ["bfs", "sssp", "components", "forest", "colour"]


def scanned(tuned, pbgl, file, algorithm, folder):
    """The words of the scan by hand, and of writing what the algorithm prints; None where there is no scan."""
    if algorithm in ("forest", "colour"):
        return {}
    whole, _ = over_ranks(file, algorithm, 1)
    text = os.path.join(folder, "text")
    with open(text, "wb") as handle:
        subprocess.run([pbgl] + whole, stdout=handle, check=True)
    scan = [tuned, algorithm, file] + ["1"] * (algorithm != "components")
    if subprocess.run(scan, stdout=subprocess.PIPE, check=True).stdout != open(text, "rb").read():
        sys.exit("the scan prints another text for %s %s" % (algorithm, file))
    return {"scan": scan, "writing": [tuned, "lines", text]}


def measure(programs, file, algorithm, given, folder):
    """The least numbers of interleaved runs: [seconds, megabytes, and milliseconds of each phase] by number of ranks, and
    [seconds] of the scan and of writing."""
    pbgl, pg_bench, tuned = programs
    beside, best = scanned(tuned, pbgl, file, algorithm, folder), {}
    for _ in range(given.rounds):
        for ranks in given.ranks:
            whole, phases = over_ranks(file, algorithm, ranks)
            seconds, memory, _ = phased([pbgl] + whole)
            best[ranks] = least(best.get(ranks), [seconds, memory] + timed([pg_bench] + phases)[0])
        for name, words in beside.items():
            best[name] = least(best.get(name), [phased(words)[0]])
    return best


def ratio(best, ranks):
    """The whole run less the writing, divided by the scan's; None where there is no scan."""
    if "scan" not in best:
        return None
    return (best[ranks][0] - best["writing"][0]) / best["scan"][0]


def rows(results, given):
    for (name, algorithm), best in results.items():
        for ranks in given.ranks:
            seconds, memory, *phases = best[ranks]
            beside = ratio(best, ranks)
            scan = "" if beside is None else "%.2f s" % best["scan"][0]
            yield "| %s | %s | %d | %.2f s | %s | %s | %s | %.0f MB |" % (
                name, algorithm, ranks, seconds, " | ".join("%d ms" % phase for phase in phases[:3]), scan,
                "" if beside is None else "%.2f" % beside, memory)


def greatest(results, given):
    """For each number of ranks the greatest ratio to the scan, and for several ranks to one rank's whole run."""
    for ranks in given.ranks:
        ratios = [ratio(best, ranks) for best in results.values() if "scan" in best]
        line = "- %d rank%s: at most %.2f times the scan" % (ranks, "s"[:ranks - 1], max(ratios))
        if ranks > 1:
            line += "; the whole run at most %.2f times that of one rank" % max(
                best[ranks][0] / best[given.ranks[0]][0] for best in results.values())
        yield line + "."


def page(results, given):
    lines = ["# Times", "",
             "Measured by `python3 bench/table.py` on %s, on a machine with %d processors; least of %d runs. No clause and no"
             % (datetime.date.today(), os.cpu_count(), given.rounds),
             "proof speaks of time. `bench/table.py` says what each column is.", "", "![The phases of each run](times.svg)", ""]
    lines += list(greatest(results, given))
    lines += ["", "| File | Algorithm | Ranks | Whole run | Reading | Building | Running | Scan by hand | Ratio | Peak memory |",
              "|---|---|---|---|---|---|---|---|---|---|"]
    return "\n".join(lines + list(rows(results, given))) + "\n"


def bar(best, ranks):
    """The phases of one run in seconds, and what is left of the whole: mostly writing."""
    seconds, _, *phases = best[ranks]
    parts = [phase / 1000 for phase in phases[:3]]
    return parts + [max(seconds - sum(parts), 0)]


def plot(results, given):
    """A bar for each run, from left to right its phases."""
    bars = [("%s %s, %d" % (name, algorithm, ranks), bar(best, ranks))
            for (name, algorithm), best in results.items() for ranks in given.ranks]
    scale = 560 / max(sum(parts) for _, parts in bars)
    height = 40 + 16 * len(bars)
    out = ['<svg xmlns="http://www.w3.org/2000/svg" width="800" height="%d" font-family="sans-serif" font-size="11">' % height,
           '<rect width="800" height="%d" fill="white"/>' % height]
    for place, name in enumerate(PHASES + ["the rest, mostly writing"]):
        out.append('<rect x="%d" y="8" width="10" height="10" fill="%s"/><text x="%d" y="17">%s</text>'
                   % (160 + 110 * place, COLOURS[place], 174 + 110 * place, name))
    for place, (name, parts) in enumerate(bars):
        top, left = 30 + 16 * place, 160.0
        out.append('<text x="152" y="%d" text-anchor="end">%s</text>' % (top + 10, name))
        for part, colour in zip(parts, COLOURS):
            out.append('<rect x="%.1f" y="%d" width="%.1f" height="12" fill="%s"/>' % (left, top, part * scale, colour))
            left += part * scale
        out.append('<text x="%.1f" y="%d">%.2f s</text>' % (left + 4, top + 10, sum(parts)))
    return "\n".join(out + ["</svg>"]) + "\n"


def main():
    parser = argparse.ArgumentParser(description=__doc__, formatter_class=argparse.RawDescriptionHelpFormatter)
    parser.add_argument("--vertices", type=int)
    parser.add_argument("--edges", type=int)
    parser.add_argument("--rounds", type=int, default=3)
    parser.add_argument("--ranks", type=lambda words: [int(word) for word in words.split(",")], default=[1, 2, 4])
    parser.add_argument("--print", action="store_true")
    given = parser.parse_args()
    with tempfile.TemporaryDirectory() as folder:
        make, tuned = compiled("make_graph.cpp", folder), compiled("tuned.cpp", folder)
        if make is None or tuned is None:
            sys.exit("g++ is missing: no file to measure on")
        programs = built_pbgl(), built("pg_bench"), tuned
        results = {}
        for name, file in weighted_graphs(make, folder, given).items():
            for algorithm in ALGORITHMS:
                results[name, algorithm] = measure(programs, file, algorithm, given, folder)
                print("measured %s on %s" % (algorithm, name), file=sys.stderr, flush=True)
    if given.print:
        print(page(results, given), end="")
        return
    for name, text in {"TIMES.md": page(results, given), "times.svg": plot(results, given)}.items():
        with open(os.path.join(TOP, "docs", name), "w", encoding="utf-8") as handle:
            handle.write(text)


if __name__ == "__main__":
    main()
