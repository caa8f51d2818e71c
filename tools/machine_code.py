"""machine_code: the functions of an archive, instruction by instruction, as objdump shows them, for x86-64 and for Arm
(for tools/stack and tools/constant-loads)."""
import os
import re
import shutil
import subprocess

NAMES = {"elf64-x86-64": "x86-64", "elf64-littleaarch64": "Arm"}  # objdump's word for a processor, and ours
MACHINES = {"x86-64": "x86_64", "Arm": "aarch64"}  # uname's
FROM_C_LIBRARY = {"memset"}


class Instruction:
    def __init__(self, at, text, relocations):
        self.at, self.relocations = at, relocations  # of each relocation: its type, and the symbol with what is added to it
        words = [w for w in re.split(r"#(?= )|//", text)[0].split() if w not in ("notrack", "bnd", "data16", "cs", "lock", "rep", "repz")]
        self.name, self.operands = (words or ["nop"])[0], " ".join(words[1:])

    def __str__(self):
        return " ".join([self.name, self.operands] + [f"[{kind} {symbol}]" for kind, symbol in self.relocations])

    def target(self):
        """Where a jump or call without a relocation goes: the function that it names, and the place in it."""
        place = re.search(r"(?:^|\s)([0-9a-f]+) <(.*?)(?:\+0x[0-9a-f]+)?>$", self.operands)
        return (place[2], int(place[1], 16)) if place else (None, None)

    def callee(self):
        """The function that the relocation of a jump or call names, if it is of a form that is known."""
        if len(self.relocations) == 1:
            kind, symbol = self.relocations[0]
            if kind in ("R_X86_64_PLT32", "R_X86_64_PC32") and symbol.endswith("-0x4"):
                return symbol.removesuffix("-0x4").removeprefix(".text.")
            if kind in ("R_AARCH64_CALL26", "R_AARCH64_JUMP26"):
                return symbol.removeprefix(".text.")
        return None


class Code:
    """An archive's functions: (object, name) -> its instructions, in order; and which of them C calls."""

    def __init__(self, archive, stop, processor=None):
        if not archive.exists():
            stop(f"there is no {archive}: tools/archive writes the one for x86-64, tools/native-lib another")
        self.processor = processor or processor_of(archive, stop)
        tool = objdump(self.processor)
        if not shutil.which(tool):
            package = "binutils" if tool == "objdump" else f"binutils-{MACHINES[self.processor].replace('_', '-')}-linux-gnu"
            stop(f"no {tool}: it is in Debian's {package}")
        listing = subprocess.run([tool, "-d", "-r", "-w", "--no-show-raw-insn", archive], capture_output=True, text=True)
        if listing.returncode:
            stop(listing.stderr.strip())
        self.functions, member, body = {}, None, None
        for line in listing.stdout.splitlines():
            if found := re.match(r"(\S+):\s+file format (\S+)", line):
                member, form = found.groups()
                if NAMES.get(form) != self.processor:
                    stop(f"{member} is {form}, and not for {self.processor}")
            elif found := re.match(r"([0-9a-f]+) <(.+)>:$", line):
                if int(found[1], 16) != 0:
                    stop(f"{found[2]} does not begin a section of its own")
                body = self.functions.setdefault((member, found[2]), [])
                if body:
                    stop(f"{member} has two functions {found[2]}")
            elif found := re.match(r"\s*([0-9a-f]+):\t(.+)$", line):
                # the instruction's own columns, then two for each relocation
                columns = found[2].split("\t")
                first = next((k for k, c in enumerate(columns) if re.fullmatch(r"[0-9a-f]+: R_\w+", c)), len(columns))
                kinds, symbols = columns[first::2], columns[first + 1 :: 2]
                if len(kinds) != len(symbols):
                    stop(f"a line of objdump's that is not understood: {line}")
                relocations = [(kind.split()[1], symbol.strip()) for kind, symbol in zip(kinds, symbols)]
                body.append(Instruction(int(found[1], 16), " ".join(columns[:first]), relocations))
            elif line.strip() and not line.startswith(("In archive", "Disassembly of", "\t...")):
                stop(f"a line of objdump's that is not understood: {line}")
        if not self.functions:
            stop(f"{archive} has no function")
        self.exported = {name: (member, name) for member, name in self.functions if name.startswith("ulb_") and "::" not in name}

    def find(self, member, callee):
        """The function that a name means in an object: its own, or one that C calls; None if the archive does not have it."""
        return (member, callee) if (member, callee) in self.functions else self.exported.get(callee)


def objdump(processor):
    """The command for a processor: Debian's own, or the one for another processor beside it."""
    return "objdump" if os.uname().machine == MACHINES[processor] else f"{MACHINES[processor]}-linux-gnu-objdump"


def processor_of(archive, stop):
    """The processor that an archive's first object is for, by the number in its head."""
    data = archive.read_bytes()
    at = data.find(b"\x7fELF")
    machine = int.from_bytes(data[at + 18 : at + 20], "little") if at >= 0 else None
    if machine not in (62, 183):
        stop(f"{archive} holds no object for x86-64 or Arm")
    return {62: "x86-64", 183: "Arm"}[machine]
