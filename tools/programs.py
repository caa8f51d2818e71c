"""programs: how the house's own programs are run. tools/ask and tools/frame-strip read it."""
import pathlib
import shutil
import subprocess
import sys

root = pathlib.Path(__file__).resolve().parent.parent


def newest(crates):
    """When a file that these crates are proved from was last changed."""
    files = [file for crate in crates for part in ("src", "specs", "proofs") for file in (root / "crates" / crate / part).rglob("*")]
    return max((file.stat().st_mtime for file in [*files, root / "crates.txt"]), default=0)


def command(name, caller):
    """The words that run program `name`. `rt ci` and `rt run` leave it in its crate's out/; where it is not there, or older than a file of its
    crate or of those below, `rt run` proves and builds it first, on an empty input."""
    rt = shutil.which("rt")
    if not rt:
        sys.exit(f"{caller}: rt is not on the path: put the Rattle kit's bin folder there")
    folder = root / "crates" / name
    program = folder / "out" / name
    below = subprocess.run([root / "tools/crates", "--below", name], check=True, capture_output=True, text=True).stdout.split()
    if not program.exists() or program.stat().st_mtime < newest([name, *below]):
        subprocess.run([rt, "run"], cwd=folder, check=True, stdin=subprocess.DEVNULL, stdout=subprocess.DEVNULL)
    return [str(program)]


def fetches(clock, x, column):
    """The four fetches of the eight clocks that a clock of the picture is in, in their order: clock, byte and column. heldat names the first of the
    two columns; that the fetches come three clocks into the eight is proved (crate ports, Terms.eight_clocks and Columns)."""
    first = clock - x % 8 + 3
    return [(first, "bitmap", column), (first + 1, "attribute", column), (first + 2, "bitmap", column + 1), (first + 3, "attribute", column + 1)]
