"""names: what the crates declare, for the tools that read names out of pages (names-check, statements).

A file of definitions or theorems declares its names, and of each type the fields and cases; a crate's code its functions, types and
constants, and of each type the functions and cases. A word in a comment, or one that is only used, declares nothing. A crate is one of
crates/, the Rust wrapper (ulb_machine), or one that crates.txt names as a dependency: the kit's, whose insides are not looked into."""
import collections
import pathlib
import re

root = pathlib.Path(__file__).resolve().parent.parent
BEFORE = r"(?:(?:pub|abbrev|unfoldable|opaque)\s+)*"
NAME = r"[^\s:;(){}.]+"
File = collections.namedtuple("File", "crate path stem text declared")
Place = collections.namedtuple("Place", "file name owner")  # a name that a file declares; owner is its type, if it is a field or case


class Proved:
    """What one file of definitions or theorems declares: its names, and of each type the members."""

    def __init__(self, text):
        self.names, self.members = set(), {}
        owner, depth = None, -1
        for line in text.splitlines():
            line = re.sub(r"(^|\s)--(\s.*)?$", "", line)
            indent = len(line) - len(line.lstrip())
            if not line.strip():
                continue
            if indent <= depth:
                owner, depth = None, -1
            if kind := re.match(rf"\s*{BEFORE}(?:record|data)\s+({NAME})\s.*(?:where|:)", line):
                owner, depth = kind[1], indent
                self.names.add(owner)
                self.members.setdefault(owner, set())
            elif sign := re.match(rf"\s*{BEFORE}({NAME})\s+:\s", line + " "):
                self.names.add(sign[1])
                if owner:
                    self.members[owner].add(sign[1])


class Code:
    """What a crate's code declares: its names, and of each type the functions and cases."""

    def __init__(self, text):
        text = re.sub(r"//[^\n]*", "", text)
        self.names = set(re.findall(r"\b(?:fn|struct|enum|const|trait|type)\s+(\w+)", text))
        self.members = {}
        for kind, owner, body in re.findall(r"^(impl|enum|pub enum)(?:<[^>]*>)?\s+(\w+)(?:<[^>]*>)?\s*\{(.*?)^\}", text, flags=re.S | re.M):
            found = r"\bfn\s+(\w+)" if kind == "impl" else r"^    (\w+)\b"
            self.members.setdefault(owner, set()).update(re.findall(found, body, flags=re.M))


class Crates:
    """`proved` holds, for each crate, pairs of a file's path and its text; `code` its code's text; `outside` the kit's crates."""

    def __init__(self, proved, code, outside):
        self.proved = {crate: [File(crate, path, path.stem, text, Proved(text)) for path, text in files] for crate, files in proved.items()}
        self.code = {crate: Code(text) for crate, text in code.items()}
        self.outside = set(outside)
        self.all = set(self.proved) | set(self.code) | self.outside

    def files(self, crate=None):
        return [file for name, files in self.proved.items() if crate in (None, name) for file in files]

    def places(self, word, crate=None):
        """Where `File.name` or `Type.member`, of which a star stands for any part, is declared: in one crate or in any."""
        first, name = word.split(".")
        pattern = re.compile(re.escape(name).replace(r"\*", NAME))
        found = []
        for file in self.files(crate):
            if file.stem == first:
                found += [Place(file, declared, None) for declared in file.declared.names if pattern.fullmatch(declared)]
            found += [Place(file, declared, first) for declared in file.declared.members.get(first, ()) if pattern.fullmatch(declared)]
        return found

    def holds(self, crate, word):
        """A word behind a crate's name."""
        if crate in self.outside:
            return True
        if "." in word:
            return bool(self.places(word, crate))
        return any(word == file.stem or word in file.declared.names for file in self.files(crate)) or (
            crate in self.code and word in self.code[crate].names)

    def calls(self, first, name):
        """`crate::name` or `Type::name`: the crates whose code has it."""
        if first in self.all:
            return [first] if first in self.outside or (first in self.code and name in self.code[first].names) else []
        return [crate for crate, code in self.code.items() if name in code.members.get(first, ())]


def read():
    """The repository's crates."""
    proved, code, needed = {}, {}, set()
    for path in sorted(path for part in ("specs", "proofs") for path in (root / "crates").glob(f"*/{part}/**/*.antt")):  # and none of out/
        proved.setdefault(path.relative_to(root / "crates").parts[0], []).append((path, path.read_text(encoding="utf-8")))
    for path in sorted((root / "crates").glob("*/src/*.rt")):
        crate = path.parent.parent.name
        code[crate] = code.get(crate, "") + path.read_text(encoding="utf-8")
    for path in sorted((root / "firmware/rust/src").glob("*.rs")):  # the Rust wrapper, which the pages name too
        code["ulb_machine"] = code.get("ulb_machine", "") + path.read_text(encoding="utf-8")
    for line in (root / "crates.txt").read_text(encoding="utf-8").splitlines():
        needed |= set(line.partition(":")[2].split())
    return Crates(proved, code, needed - set(proved) - set(code))
