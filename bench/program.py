"""Builds a program over crates of the repository in a folder of its own, so that what it costs can be counted."""
import pathlib
import shutil
import subprocess
import sys

TOP = pathlib.Path(__file__).resolve().parent.parent


def listed():
    """The lines of crates.txt, by crate."""
    lines = (TOP / "crates.txt").read_text().splitlines()
    return {line.split(":")[0].strip(): line for line in lines if ":" in line and not line.startswith("#")}


def build(folder, name, uses, source, proofs, words):
    """Builds the program from its source and proofs over the crates that it uses and those below them, and prints where it stands."""
    target = pathlib.Path(folder)
    lines = listed()
    below = []
    waiting = list(uses)
    while waiting:
        crate = waiting.pop()
        if crate in lines and crate not in below:
            below.append(crate)
            waiting += lines[crate].split(":")[1].split()
    for crate in below:
        for part in ("src", "specs", "proofs"):
            given = TOP / "crates" / crate / part
            if given.is_dir():
                shutil.copytree(given, target / "crates" / crate / part)
    order = [line for crate, line in lines.items() if crate in below]
    (target / "crates.txt").write_text("\n".join(order + [f"{name}: " + " ".join(uses)]) + "\n")
    shutil.copy(TOP / "HANDLES", target / "HANDLES")
    crate = target / "crates" / name
    (crate / "src").mkdir(parents=True)
    (crate / "src" / "main.rt").write_text(source)
    (crate / "proofs").mkdir()
    (crate / "proofs" / "Lib.antt").write_text("")
    for file, text in proofs.items():
        path = crate / "proofs" / f"{file}.antt"
        path.parent.mkdir(parents=True, exist_ok=True)
        path.write_text(text)
    ran = subprocess.run(["rt", "run", "--", *words], cwd=crate, stdout=subprocess.PIPE, stderr=subprocess.STDOUT, text=True)
    if ran.returncode != 0:
        sys.exit(f"bench: the program {name} didn't run:\n{ran.stdout[-3000:]}")
    print(crate / "out" / name)
