"""What the scripts that try the built program share: which program that is, its version, and how they end."""
import importlib.machinery
import importlib.util
import re
import sys
from pathlib import Path

ROOT = Path(__file__).resolve().parent.parent
OUT = ROOT / "crates/dc429/out"
VERSIONED = ROOT / "crates/dc_command/src/identity.rt"
BUILT = [OUT / "dc429", ROOT / "build/dc429"]


def built(named=()):
    """The program that is named, else the gate's, else that of `make build`. Where there is none the script ends."""
    found = next((path.resolve() for path in ([Path(it) for it in named[:1]] or BUILT) if path.is_file()), None)
    if found is None:
        sys.exit("no built program: give its path, or run make build")
    return found


def all_built(named=()):
    """The programs that are named, else those of both compilers that the gate builds, else that of `make build`."""
    by_both = [path for path in (OUT / "dc429", OUT / "dc429.by-rattle") if path.is_file()]
    return [Path(it).resolve() for it in named] or by_both or [built()]


def module_of(path):
    """A script of the repository as a module, though its name may have no ending."""
    loader = importlib.machinery.SourceFileLoader(path.stem, str(path))
    module = importlib.util.module_from_spec(importlib.util.spec_from_loader(path.stem, loader))
    sys.modules[path.stem] = module
    loader.exec_module(module)
    return module


def version():
    """The version that the program prints, as its source has it: the one place where it is written."""
    return constant("VERSION")


def constant(name):
    """A text of the source that says what the program is, by its name."""
    (said,) = re.findall(rf'^pub const {name}: &str = "([^"]+)";$', VERSIONED.read_text(), re.M)
    return said


def ended(count, tried, faults, said="faults", shown=None):
    """Prints the faults, or so many of them, and the last line, as `12 rows, 0 faults`. The status is 1 where there is a
    fault, or nothing was tried."""
    for fault in faults[:shown]:
        print(fault)
    print(f"{count} {tried}, {len(faults)} {said}")
    return 1 if faults or not count else 0
