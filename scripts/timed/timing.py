"""What the scripts that time proved programs share: to build such a program in a repository of its own, over crates of
this one, and to run programs in turns, so that all of them see the same load of the machine.

The files of a program stand in a folder of its name beside this file, with `.text` behind their names, since the gate
allows code and proofs in crates alone.
"""
import os
import pathlib
import shutil
import subprocess
import sys

ROOT = pathlib.Path(__file__).resolve().parent.parent.parent
TIMED = ROOT / "scripts" / "timed"


def below(names):
    """The lines of crates.txt for these crates and those below them, by name. Marks may stand behind a name."""
    listed = [line for line in (ROOT / "crates.txt").read_text().splitlines() if line and not line.startswith("#")]
    lines = {line.split(":")[0].split()[0]: line for line in listed}
    found, wanted = {}, list(names)
    while wanted:
        name = wanted.pop()
        if name in lines and name not in found:
            found[name] = lines[name]
            wanted += lines[name].split(":")[1].split()
    return found


def prove(names):
    """Proves libraries where they stand, and builds them for the crates above them."""
    for name in names:
        subprocess.run(["rt", "lib"], cwd=ROOT / "crates" / name, check=True, stdout=sys.stderr)


def make(scratch, name, uses, change=lambda text: text, copied=()):
    """Proves and builds a program over libraries that were proved, which are copied as they are, and answers its path.
    `copied` are files of other crates, as pairs of the crate and a path in it."""
    folder, texts = scratch / "crates" / name, {}
    for file in (TIMED / name).rglob("*.text"):
        texts[file.relative_to(TIMED / name).with_suffix("")] = change(file.read_text())
    for crate, path in copied:
        texts[path] = (ROOT / "crates" / crate / path).read_text().replace(f"Rattle.{crate}.", f"Rattle.{name}.")
    for path, text in texts.items():
        (folder / path).parent.mkdir(parents=True, exist_ok=True)
        (folder / path).write_text(text)
    lines = below(uses)
    not_needed = shutil.ignore_patterns("incremental")
    for crate in lines:
        shutil.copytree(ROOT / "crates" / crate, scratch / "crates" / crate, ignore=not_needed)
    lines[name] = f"{name}: " + " ".join(uses)
    (scratch / "crates.txt").write_text("".join(f"{line}\n" for line in lines.values()))
    subprocess.run(["rt", "run", "--", "0", "0", "0", "0"], cwd=folder, check=True, stdout=sys.stderr)
    return folder / "out" / name


def least(programs, rounds):
    """The least of each number that each program prints, over so many rounds, in each of which all of them run once.
    The last number that a program prints is a sum, which has to be the same for all of them."""
    best = {}
    for _ in range(rounds):
        sums = set()
        for words in programs:
            printed = subprocess.run(list(map(str, words)), capture_output=True, text=True, check=True).stdout.split()
            *times, total = map(int, printed)
            sums.add(total)
            best[words] = [min(pair) for pair in zip(times, best.get(words, times))]
        assert len(sums) == 1, f"different answers: {programs}"
    return [best[words] for words in programs]


def load():
    """The load of the machine over the last minute."""
    return f"load {os.getloadavg()[0]:.1f} on {os.cpu_count()} processors"
