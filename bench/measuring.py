"""What the scripts of bench/ share: the programs they build, instructions by callgrind, times, memory, and the machine."""
import functools
import os
import pathlib
import random
import re
import statistics
import subprocess
import tempfile

TOP = pathlib.Path(__file__).resolve().parent.parent
ROOM = pathlib.Path(tempfile.gettempdir()) / "hazbultra_bench"
LOOPS = TOP / "crates" / "bench_loops" / "out" / "bench_loops"
LARGE = TOP / "crates" / "bench_large" / "out" / "bench_large"
BESIDE = ROOM / "release" / "beside_queues"
C = TOP / "bindings" / "c"
ARCHIVE = TOP / "bindings" / "rust" / "prebuilt" / "x86_64-unknown-linux-gnu" / "libhazbultra.a"
NANOSECONDS = {"s": 1e9, "ms": 1e6, "µs": 1e3, "ns": 1}


def proved(*programs):
    """Proves and builds these programs of crates/, by a short run of each."""
    for program in programs:
        folder = program.parent.parent
        args = folder / "args"
        words = args.read_text(encoding="utf-8").split() if args.exists() else []
        subprocess.run(["rt", "run", "--jobs", "1", "--", *words], cwd=folder, check=True, stdout=subprocess.DEVNULL)


def cargo(folder):
    """Builds with cargo, into the room of these scripts."""
    # (the crates of others ask for settings that this cargo does not know)
    into = {**os.environ, "CARGO_TARGET_DIR": str(ROOM), "RUSTFLAGS": "-A unexpected_cfgs"}
    subprocess.run(["cargo", "build", "--quiet", "--release", "--offline"], cwd=TOP / folder, env=into, check=True)


def compiled(source):
    """A C program over the prebuilt archive."""
    ROOM.mkdir(exist_ok=True)
    program = ROOM / source.stem
    subprocess.run(["cc", "-O2", "-g", f"-I{C}", source, C / "heap.c", ARCHIVE, "-pthread", "-o", program], check=True)
    return program


def machine():
    """The processor, how many there are, and the load of the last minute."""
    told = subprocess.run(["lscpu"], capture_output=True, text=True, check=True).stdout
    name = re.search(r"Model name:\s*(.*)", told)
    return f"Machine: {name[1] if name else 'unknown'}, {os.cpu_count()} processors, load {os.getloadavg()[0]:.1f}"


@functools.cache
def counted(words):
    """The instructions of a run, by callgrind, and what it printed. They repeat exactly if the run has one thread."""
    valgrind = ["valgrind", "--tool=callgrind", "--callgrind-out-file=/dev/null"]
    ran = subprocess.run([*valgrind, *map(str, words)], capture_output=True, text=True, check=True)
    return int(re.search(r"Collected : (\d+)", ran.stderr)[1]), ran.stdout


def instructions(words):
    """The instructions of a run."""
    return counted(words)[0]


def used(words):
    """The nanoseconds of processor time that a run takes, the bytes that were resident at most, and what it printed."""
    with subprocess.Popen([*map(str, words)], stdout=subprocess.PIPE, stderr=subprocess.STDOUT, text=True) as ran:
        said = ran.stdout.read()
        _, status, usage = os.wait4(ran.pid, 0)
        ran.returncode = os.waitstatus_to_exitcode(status)
    if ran.returncode:
        raise SystemExit(f"{' '.join(map(str, words))}: status {ran.returncode}\n{said}")
    return (usage.ru_utime + usage.ru_stime) * 1e9, usage.ru_maxrss * 1024, said


def by_item(few, many, told):
    """What one more item takes: `told` says what so many items take, and the difference leaves out what does not grow."""
    return (told(many) - told(few)) / (many - few)


def medians(rounds, runs):
    """The median of what each run tells. Each round makes all runs, in an order drawn anew."""
    told = {name: [] for name in runs}
    names = list(runs)
    for number in range(rounds):
        random.Random(number).shuffle(names)
        for name in names:
            told[name].append(runs[name]())
    return {name: statistics.median(figures) for name, figures in told.items()}


def nanoseconds(text):
    """The nanoseconds of a duration as Rust prints it, as 1.5ms."""
    found = re.fullmatch(r"([0-9.]+)(s|ms|µs|ns)", text)
    return float(found[1]) * NANOSECONDS[found[2]]


def table(head, rows):
    """A table of a page. A figure has a comma after each thousand, and None is "-"."""
    def cell(it):
        if it is None:
            return "-"
        return it if isinstance(it, str) else f"{it:,.0f}"
    lines = [head, ["---"] * len(head), *rows]
    return "\n".join("| " + " | ".join(map(cell, line)) + " |" for line in lines)
