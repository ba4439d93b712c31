"""The kit's own library, for what the command rt cannot do: it knows rattle's command line, and where libraries stand.

    ci/kit.py --jobs       prints what RT_JOBS is to be for `rt ci`, or nothing if rt has to guess
    ci/kit.py --archive CRATE [FLAGS..]    builds an archive over the libraries that `rt ci` left, and proves none once more
"""
import importlib
import os
import shutil
import sys

TOP = os.path.dirname(os.path.dirname(os.path.abspath(__file__)))
MEMORY = 4_600_000_000  # bytes for each check that rt starts: the largest four were seen to take 4.8, 4.7, 3.3 and 2.7 GB


def load():
    """The kit's rtlib.py, which stands beside rt, and the crates by their names. It is as in rattle-kit-13b and 13f."""
    folder = os.path.dirname(os.path.realpath(shutil.which("rt") or ""))
    if not os.path.isfile(f"{folder}/rtlib.py"):
        sys.exit("there is no rt on the PATH with an rtlib.py beside it")
    sys.dont_write_bytecode = True
    sys.path.append(folder)
    kit = importlib.import_module("rtlib")
    # (its first call sets the handler of a signal, which only the main thread may)
    kit.guarded()
    return kit, {it.name: it for it in kit.crates_below(TOP)}


def lacking(crate, is_proved):
    """The libraries below the crate that have to be built. Right after `rt ci`, which leaves no stamps, those that are not there."""
    return [it for it in crate.below() if not (os.path.isdir(it.rlib) if is_proved else it.is_built())]


def lanes(kit, memory):
    """How many checks of this memory run side by side: one for each processor, if memory holds them."""
    return next(it for it in range(len(os.sched_getaffinity(0)), 0, -1) if it == 1 or kit.fits(*[memory] * it))


def archive(kit, crate, flags):
    """Builds the archive of this crate. Returns whether that failed."""
    held = kit.lock([*crate.below(), crate])
    os.makedirs(f"{crate.folder}/out", exist_ok=True)
    assert held and not lacking(crate, True), "rt ci left no library"
    return crate.build_static(["--jobs", os.environ.get("RT_JOBS", "1"), *flags])


if __name__ == "__main__":
    kit, crates = load()
    if "--archive" in sys.argv:
        sys.exit(archive(kit, crates[sys.argv[2]], sys.argv[3:]))
    most = lanes(kit, MEMORY)
    # With RT_JOBS rt starts so many checks, whatever memory it expects them to take. With two processors RT_JOBS is not needed.
    print(most if most > 2 and most == len(os.sched_getaffinity(0)) else "")
