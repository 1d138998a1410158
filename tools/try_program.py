#!/usr/bin/env python3
"""Tries the built program `pbgl` from outside: what it writes to standard output and to standard error, and the
status that it ends with.

    python3 tools/try_program.py [--pbgl PATH]

Three lists of runs: one or more for each status that files and streams can bring about (0, 2, 3, 4, 5, 6 and 8);
each command that README.md shows, against what it shows there; each file of examples/ that holds an answer, also over
ranks, threads, capacities, widths of buckets and a partition file. Colours of more than one rank are looked at for edges
with one colour at both ends, and for colours above a vertex's degree. One line for each run that differs; the last line is
`N passed, M failed`, and the status is 1 if any failed.

Without --pbgl it runs bin/pbgl, which proves and builds the program first where it isn't current.
"""
import argparse, glob, os, re, shlex, subprocess, sys, tempfile

TOP = os.path.dirname(os.path.dirname(os.path.abspath(__file__)))
FULL = "/dev/full"
SECONDS = 60

# The files of the runs by status. Two hold graphs that answer differently.
FILES = {
    "A": "4 2 1\n2 5\n1 5 3 2\n2 2\n\n",
    "B": "3 2\n2\n1 3\n2\n",
    "-": "1 0\n\n",
    "-A": "2 1\n2\n1\n",
    "broken": "3 1\n2\n3\n\n",
    "empty": "",
    "none": "0 0\n",
    "owners": "0\n1\n3\n0\n",
}

# The summary of a grid of two columns and two rows.
GRID = "vertices 4\nedges 4\nhops 4 2 4\nweights 4 3805 7477\ncomponents 1\nforest 3 5031\nclashes 0\n"

# Words, status, standard output, standard error. None: not looked at, since it went to a full device.
RUNS = [
    ("bfs A --source 1", 0, "0\n1\n2\n-\n", ""),
    ("bfs B --source 1", 0, "0\n1\n2\n", ""),
    ("--source=3 bfs B", 0, "2\n1\n0\n", ""),
    ("bfs - --source 1 --", 0, "0\n", ""),
    ("bfs --source 2 -- -A", 0, "1\n0\n", ""),
    ("", 2, "", "bad words\n"),
    ("bfs A", 2, "", "bad words\n"),
    ("bfs missing", 2, "", "bad words\n"),
    ("bfs A --source x", 2, "", "bad words\n"),
    ("bfs A --source 1 --source 1", 2, "", "bad words\n"),
    ("bfs A --source -- 1", 2, "", "bad words\n"),
    ("sssp A --source 1 --delta 0", 2, "", "bad words\n"),
    ("components A --source 1", 2, "", "bad words\n"),
    ("forest A --source 1", 2, "", "bad words\n"),
    ("colour A --delta 4", 2, "", "bad words\n"),
    ("grid --width 2 --height 2", 2, "", "bad words\n"),
    ("grid A --width 2 --height 2 --seed 7", 2, "", "bad words\n"),
    ("grid --width 1025 --height 1024 --seed 7", 2, "", "bad words\n"),
    ("grid --width 2 --height 2 --seed 7", 0, GRID, ""),
    ("grid --width 2 --height 2 --seed 7 --ranks 3 --threads 2 --capacity 1 --delta 1", 0, GRID, ""),
    ("sssp A --source 1", 0, "0\n5\n7\n-\n", ""),
    ("sssp A --source 1 --delta 1 --ranks 3 --threads 2", 0, "0\n5\n7\n-\n", ""),
    ("components A", 0, "1\n1\n1\n4\n", ""),
    ("components A --ranks 4 --parts owners", 0, "1\n1\n1\n4\n", ""),
    ("components A --ranks 3 --parts owners", 4, "", "parts line 3: OutOfRange\n"),
    ("components broken --ranks 3 --parts owners", 3, "", "line 2: NoMirror\n"),
    ("bfs A --source 9 --ranks 3 --parts owners", 4, "", "parts line 3: OutOfRange\n"),
    ("bfs A --source 9 --ranks 4 --parts owners", 8, "", "source 9: not in the graph\n"),
    ("components A --parts missing", 5, "", "cannot read\n"),
    ("forest A", 0, "1 2 5\n2 3 2\ntotal 7\n", ""),
    ("forest A --ranks 2 --threads 1 --capacity 1", 0, "1 2 5\n2 3 2\ntotal 7\n", ""),
    ("forest A --ranks 4 --parts owners", 0, "1 2 5\n2 3 2\ntotal 7\n", ""),
    ("forest none", 0, "total 0\n", ""),
    ("forest broken", 3, "", "line 2: NoMirror\n"),
    ("forest A --ranks 3 --parts owners", 4, "", "parts line 3: OutOfRange\n"),
    ("colour A", 0, "0\n1\n0\n0\n", ""),
    ("colour none --ranks 3", 0, "", ""),
    ("colour missing", 5, "", "cannot read\n"),
    ("bfs A --source 1 --ranks 1", 0, "0\n1\n2\n-\n", ""),
    ("bfs A --source 1 --ranks 32 --capacity 1", 0, "0\n1\n2\n-\n", ""),
    ("bfs A --source 1 --ranks 4 --threads 4 --capacity 1", 0, "0\n1\n2\n-\n", ""),
    ("bfs A --source 1 --threads 33", 2, "", "bad words\n"),
    ("--help", 2, "", "bad words\n"),
    ("bfs broken --source 1", 3, "", "line 2: NoMirror\n"),
    ("bfs empty --source 1", 3, "", "line 1: NoHeader\n"),
    ("bfs broken --source 9", 3, "", "line 2: NoMirror\n"),
    ("bfs missing --source 1", 5, "", "cannot read\n"),
    ("bfs . --source 1", 5, "", "cannot read\n"),
    ("bfs A --source 0", 8, "", "source 0: not in the graph\n"),
    ("bfs A --source 5", 8, "", "source 5: not in the graph\n"),
]

# The same where standard output, standard error or both are a full device.
FULL_RUNS = [
    ("bfs A --source 1", 6, None, "cannot write\n"),
    ("bfs A --source 1", 6, None, None),
    ("forest A", 6, None, "cannot write\n"),
    ("bfs broken --source 1", 3, "", None),
    ("bfs A --source 0", 8, None, "source 0: not in the graph\n"),
]


# By which ranks, threads and lanes each example is run besides; and by which widths of buckets, where there are any.
CREWS = ["--threads 2", "--ranks 2 --threads 1", "--ranks 3 --capacity 1 --threads 2", "--ranks 7", "--ranks 32 --threads 4"]
BUCKETS = ["--delta 1 --ranks 2", "--delta 4294967295 --ranks 3 --threads 2"]


def run(program, words, folder, out=subprocess.PIPE, errs=subprocess.PIPE):
    """The status, and what was written to pipes."""
    done = subprocess.run([program] + words, cwd=folder, stdin=subprocess.DEVNULL,
                          stdout=out, stderr=errs, timeout=SECONDS)
    return done.returncode, done.stdout, done.stderr


def difference(wanted, got):
    """What differs between two answers, as a text, or nothing."""
    for name, want, have in zip(("status", "standard output", "standard error"), wanted, got):
        want = want.encode() if isinstance(want, str) else want
        if want is not None and want != have:
            return "%s %r, not %r" % (name, have, want)
    return ""


def try_statuses(program):
    """Each run by status, in a folder of its own, as pairs of a name and what differs."""
    with tempfile.TemporaryDirectory() as folder:
        for name, text in FILES.items():
            with open(os.path.join(folder, name), "w", newline="") as file:
                file.write(text)
        for line, *wanted in RUNS:
            yield "pbgl " + line, difference(wanted, run(program, line.split(), folder))
        with open(FULL, "wb") as full:
            for line, *wanted in FULL_RUNS:
                out, errs = (full if text is None else subprocess.PIPE for text in wanted[1:])
                yield "pbgl %s (full device)" % line, difference(wanted, run(program, line.split(), folder, out, errs))


def shown_commands(text):
    """The commands of a page's blocks that run bin/pbgl, each with the lines that the page shows for it. Blocks of a
    language are passed over."""
    found = []
    for language, block in re.findall(r"^```(\w*)\n(.*?)^```$", text, re.M | re.S):
        if language:
            continue
        shown = None
        for line in block.splitlines():
            if line.startswith("$ "):
                shown = [] if line.startswith("$ bin/pbgl ") else None
                if shown is not None:
                    found.append((line[2:], shown))
            elif line.startswith("bin/pbgl ") and "#" in line:
                command, note = line.split("#", 1)
                found.append((command.strip(), note.split(",")[0].split()))
            elif shown is not None:
                shown.append(line)
    return found


def try_page(program, page):
    """Each command that a page shows, run at the top, against what the page shows."""
    with open(os.path.join(TOP, page), encoding="utf-8") as file:
        commands = shown_commands(file.read())
    yield page, "" if commands else "no command was found there"
    for command, shown in commands:
        _status, out, errs = run(program, shlex.split(command)[1:], TOP)
        lines = (out + errs).decode().splitlines()
        yield "%s: %s" % (page, command), "" if lines == shown else "%r, not %r" % (lines, shown)


def example_words(path):
    """The words of the run whose answer stands in NAME.ALGORITHM, NAME.ALGORITHM-from-V or grid-WxH-seed-S.summary, without
    its options."""
    stem, answer = os.path.splitext(path)
    if answer == ".summary":
        return grid_words(os.path.basename(stem))
    algorithm, _, source = answer[1:].partition("-from-")
    return [algorithm, stem + ".graph"] + (["--source", source] if source else [])


def grid_words(name):
    """The words of a run over the grid of this name, grid-WxH-seed-S."""
    sides = re.fullmatch(r"grid-(\d+)x(\d+)-seed-(\d+)", name).groups()
    return ["grid"] + [word for pair in zip(("--width", "--height", "--seed"), sides) for word in pair]


def example_crews(path, algorithm):
    """By which ranks, threads, lanes, buckets and partition files an example is run besides, each as a list of words."""
    yield from (line.split() for line in CREWS)
    if algorithm in ("sssp", "grid"):
        yield from (line.split() for line in BUCKETS)
    parts = os.path.splitext(path)[0] + ".parts"
    if os.path.exists(parts):
        yield ["--ranks", "3", "--parts", parts]


def edges_of(path):
    """The edges of an example's graph, which may have comments and the weights of edges."""
    with open(path, encoding="utf-8") as file:
        lines = [line.split() for line in file if not line.startswith("%")]
    step = 2 if lines[0][2:] == ["1"] else 1
    return {(v, int(w)) for v, line in enumerate(lines[1:], 1) for w in line[::step]}


def improper(path, done):
    """What is wrong with the colours of an example's graph, as a text, or nothing."""
    status, out, errs = done
    colours, edges = [int(line) for line in out.split()], edges_of(path)
    if status or errs or any(max(v, w) > len(colours) for v, w in edges):
        return "status %r, colours %r, standard error %r" % (status, out, errs)
    clashes = [edge for edge in edges if colours[edge[0] - 1] == colours[edge[1] - 1]]
    high = [v for v, colour in enumerate(colours, 1) if colour > sum(edge[0] == v for edge in edges)]
    return "edges of one colour %r, colours above the degree at %r" % (clashes, high) if clashes or high else ""


def try_examples(program):
    """Each answer that stands in examples/, on one rank and over others."""
    for answer in ("bfs", "sssp", "components", "forest", "colour", "summary"):
        for path in sorted(glob.glob(os.path.join(TOP, "examples", "*.%s*" % answer))):
            with open(path, encoding="utf-8") as file:
                wanted = (0, file.read(), "")
            words, name = example_words(path), os.path.relpath(path, TOP)
            algorithm = words[0]
            yield name, difference(wanted, run(program, words, TOP))
            for crew in example_crews(path, algorithm):
                done = run(program, words + crew, TOP)
                wrong = improper(words[1], done) if algorithm == "colour" else difference(wanted, done)
                yield "%s %s" % (name, " ".join(crew)), wrong


def is_built(program):
    """Whether the program refuses to run without words. Where it has to be built, that takes its time here and not in a run
    that is timed, and what is said of it is handed on."""
    child = subprocess.Popen([program], stdin=subprocess.DEVNULL, stdout=subprocess.DEVNULL, stderr=subprocess.PIPE,
                             encoding="utf-8", errors="replace")
    with child:
        for line in child.stderr:
            if line != "bad words\n":
                print(line, end="", file=sys.stderr, flush=True)
    return child.returncode == 2


def main():
    parser = argparse.ArgumentParser(description=__doc__, formatter_class=argparse.RawDescriptionHelpFormatter)
    parser.add_argument("--pbgl", default=os.path.join(TOP, "bin", "pbgl"))
    program = os.path.abspath(parser.parse_args().pbgl)
    if not is_built(program):
        print("%s isn't there, or doesn't refuse to run without words" % program)
        print("0 passed, 1 failed")
        return 1
    passed = failed = 0
    for tries in (try_statuses(program), try_page(program, "README.md"), try_examples(program)):
        for name, wrong in tries:
            passed, failed = passed + (not wrong), failed + bool(wrong)
            if wrong:
                print("FAIL %s: %s" % (name, wrong))
    print("%d passed, %d failed" % (passed, failed))
    return 1 if failed else 0


if __name__ == "__main__":
    sys.exit(main())
