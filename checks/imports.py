"""Looks over the imports, at the top of the repository: `python3 checks/imports.py`.

Each module of specs or proofs that a crate imports is of a crate of its line in crates.txt, or of its own, and stands there, or is passed on by it; and each
name that is imported stands in that module's file. It prints what isn't so, and ends with status 1 then. It proves nothing, and takes some seconds: it
finds what two changes that were put together have moved apart. `--paths` prints how many paths the gate goes over for these imports (docs/GATE.md), and
which crates have most.
"""
import re
import sys
from functools import lru_cache
from pathlib import Path

PASSED_ON = re.compile(r"^pub use Rattle\.(\w+)\.(specs|proofs)\.((?:declared\.)?\w+)(?: as (\w+))?\s*$", re.M)
IMPORT = re.compile(r"^\s*(?:pub |ghost )*use Rattle\.(\w+)\.(specs|proofs)\.((?:declared\.)?\w+)(?:\.\{([^}]*)\})?", re.M)


def lines_of_crates():
    below = {}
    for line in Path("crates.txt").read_text(encoding="utf-8").splitlines():
        if line and line[0] != "#":
            crate, named = line.split(":", 1)
            below[crate.split()[0]] = named.split()
    return below


@lru_cache(maxsize=None)
def passed_on(crate, kind):
    library = Path(f"crates/{crate}/{kind}/Lib.antt")
    if not library.is_file():
        return {}
    found = PASSED_ON.findall(library.read_text(encoding="utf-8"))
    return {name or module.split(".")[-1]: (of, its, module) for of, its, module, name in found}


@lru_cache(maxsize=None)
def file_of(crate, kind, module):
    """The file in which a module stands, by way of those that pass it on; None where there is none. What Rattle declares has no file: True."""
    while not Path(f"crates/{crate}/{kind}/{module}.antt").is_file():
        if module.startswith("declared.") or Path(f"crates/{crate}/{kind}/{module}").is_dir():
            return True
        if module not in passed_on(crate, kind):
            return None
        crate, kind, module = passed_on(crate, kind)[module]
    return Path(f"crates/{crate}/{kind}/{module}.antt")


@lru_cache(maxsize=None)
def words_of(file):
    return set(re.split(r"[^\w◌-]+", file.read_text(encoding="utf-8")))


def wrong_imports(below):
    for crate, named in below.items():
        for path in sorted(Path(f"crates/{crate}").glob("**/*")):
            if path.suffix not in (".rt", ".antt") or path.parts[2] == "out":
                continue
            for of, kind, module, names in IMPORT.findall(path.read_text(encoding="utf-8")):
                if of not in below:
                    continue
                if of != crate and of not in named:
                    yield f"{path} imports of {of}, which the line of {crate} lacks"
                    continue
                file = file_of(of, kind, module)
                if file is None and of != crate:
                    yield f"{path} imports {module} of {of}, which isn't there"
                if file in (None, True):
                    continue
                for name in (part.split(" as ")[0].strip() for part in names.split(",") if part.strip()):
                    if name.isidentifier() and name not in words_of(file):
                        yield f"{path} imports {name}, which isn't in {file}"


def print_paths(below):
    counted = {}

    def paths(crate):
        if crate not in counted:
            counted[crate] = 1 + sum(paths(lower) for lower in below.get(crate, []))
        return counted[crate]

    print(sum(paths(crate) for crate in below))
    for crate in sorted(below, key=paths, reverse=True)[:20]:
        print(paths(crate), crate)


if __name__ == "__main__":
    crates = lines_of_crates()
    if "--paths" in sys.argv[1:]:
        print_paths(crates)
    else:
        wrong = list(wrong_imports(crates))
        for line in wrong:
            print(f"checks/imports.py: {line}")
        sys.exit(1 if wrong else 0)
