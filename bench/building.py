"""Has a program over crates of the repository proved and built, for scripts that time it."""
import pathlib
import shutil
import subprocess
import sys
import tempfile


def below(top, wanted):
    """The crates that these stand on, and they themselves, in the order of crates.txt."""
    lines = [line for line in (top / "crates.txt").read_text().splitlines() if line and not line.startswith("#")]
    uses = {line.partition(":")[0]: line.partition(":")[2].split() for line in lines}
    needed, left = set(), list(wanted)
    while left:
        crate = left.pop()
        if crate in uses and crate not in needed:
            needed.add(crate)
            left += uses[crate]
    return [line for line in lines if line.partition(":")[0] in needed]


def build(top, name, wanted, main, program):
    """Has the program with this text proved and built in a repository of its own, and copies it to this path."""
    lines = below(top, wanted)
    crates = [line.partition(":")[0] for line in lines]
    with tempfile.TemporaryDirectory() as folder:
        repository = pathlib.Path(folder)
        shutil.copy(top / "HANDLES", repository)
        (repository / "crates.txt").write_text("\n".join([*lines, f"{name}: {' '.join(crates)} sqlite_items", ""]))
        for crate in crates:
            shutil.copytree(top / "crates" / crate, repository / "crates" / crate, ignore=shutil.ignore_patterns("out"))
        crate = repository / "crates" / name
        (crate / "src").mkdir(parents=True)
        (crate / "src/main.rt").write_text(main)
        done = subprocess.run(["rt", "run"], cwd=crate, stdin=subprocess.DEVNULL, stdout=subprocess.PIPE,
                              stderr=subprocess.STDOUT, text=True)
        if done.returncode != 0:
            sys.exit("\n".join(done.stdout.splitlines()[-40:]))
        shutil.copy(crate / "out" / name, program)
