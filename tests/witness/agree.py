"""Whether rustc, the support file and a crate text give the events that a description's registers give.

    python3 agree.py [--program PAC] [--command exec] [--command run] [--edition YEAR] gallery FOLDER
    python3 agree.py [--program PAC] [--command exec] [--command run] [--edition YEAR] random COUNT SEED
    python3 agree.py [--edition YEAR] known

Each case is a description, for some a patch, and a script. With --program its crate text is what that program prints, and must
be the text that crate_text.py prints; without it is the latter. Texts and scripts are compiled by rustc with
support/generic.rs and run on its recording bus: with every answer 0, as memory, and with random answers; the events must be
those of script.py, which reads the description and no text. Each --command of the program must print them too. `known` tries
what rustc is known to refuse.
"""

import argparse
import pathlib
import random
import re
import shutil
import subprocess
import sys
import tempfile

import crate_text
import random_device
import script
from description import derive, read, unfold
from patch import patched

HERE = pathlib.Path(__file__).resolve().parent
SUPPORT = HERE.parent.parent / "support" / "generic.rs"
# So many cases are compiled at once.
EACH = 50
MAIN = """
pub mod generic;
mod texts;
mod runs;

pub trait Said { fn line(&self) -> String; }
macro_rules! said { ($($kind:ty)*) => { $(impl Said for $kind { fn line(&self) -> String { format!("say {self}") } })* } }
said! { u8 u16 u32 u64 bool }

/// Prints what was said, after what was done before.
pub fn say(said: impl Said) { kept(); println!("{}", said.line()); }

/// Prints the accesses since the last time.
pub fn kept() { for access in generic::recording::take() { println!("{access}"); } }

fn main() { runs::all(); }
"""
ALLOWED = "non_camel_case_types, non_snake_case, unused_imports, dead_code"


def resolved(files):
    """The device of a description, the file "svd", and where there is one of its patch, the file "patch"."""
    device = read(files["svd"])
    return unfold(derive(patched(device, files["patch"]) if "patch" in files else device))


class Case:
    def __init__(self, name, files, text, statements, answers):
        self.name, self.files, self.text, self.script = name, files, text, statements
        self.device = resolved(files)
        self.buses = [("zero", "zero"), ("memory", "memory"), ("answers", answers)]
        self.expected = {}
        for bus, of in self.buses:
            lines, presets = script.events(self.device, statements, of)
            self.expected[bus] = lines
            self.presets = presets

    def run(self, number):
        """The Rust functions that run the script on each bus. Its lines are Rust as they stand, but that a slot is a field of
        `device` and that the numbers of `say` have a type."""
        lines = re.sub(r"^(\s*say\s*\(\s*)([0-9][0-9a-fA-Fx_]*)", r"\1\2u64", self.script, flags=re.M)
        lines = re.sub(r"^(\s*(?:let\s+\w+\s*=\s*)?)(\w+\s*\.)", r"\1device.\2", lines, flags=re.M)
        functions = "#[allow(unused)]\nfn script() {\n"
        functions += f"let device = unsafe {{ steal::<crate::texts::t{number}::Peripherals>() }};\n"
        functions += f"{lines}crate::kept();\n}}\n\npub fn all() {{\n"
        for bus, of in self.buses:
            answers = {"zero": "Bus::Zero", "memory": "Bus::Memory"}.get(bus) or f"Bus::Answers(vec!{of})"
            functions += f'println!("# {number} {bus}");\nrecording::start({answers});\n'
            if bus == "memory":
                functions += "".join(f"recording::preset({a:#x}, {w}, {v:#x});\n" for a, w, v in self.presets)
            functions += "script();\n"
        return ("#[allow(unused_imports)]\nuse crate::say;\nuse crate::generic::{recording::{self, Bus}, steal};\n\n"
                + functions + "}\n")


def build(folder, cases, edition):
    """Compiles the cases, and gives rustc's messages and whether it ended well."""
    (folder / "texts").mkdir(exist_ok=True)
    (folder / "runs").mkdir(exist_ok=True)
    (folder / "generic.rs").write_bytes(SUPPORT.read_bytes())
    (folder / "main.rs").write_text(MAIN)
    texts, runs, calls = "", "", ""
    for number, case in cases.items():
        (folder / "texts" / f"t{number}.rs").write_text(case.text)
        (folder / "runs" / f"t{number}.rs").write_text(case.run(number))
        texts += f"#[allow({ALLOWED})]\npub mod t{number};\n"
        runs += f"mod t{number};\n"
        calls += f"t{number}::all();\n"
    (folder / "texts" / "mod.rs").write_text(texts)
    (folder / "runs" / "mod.rs").write_text(runs + f"\npub fn all() {{\n{calls}}}\n")
    done = subprocess.run(
        ["rustc", "--edition", edition, "-D", "warnings", "-C", "debuginfo=0", "--cfg", 'feature="recording"',
         "-o", folder / "run", folder / "main.rs"], capture_output=True, text=True)
    return done.stderr, done.returncode == 0


def first_error(messages):
    """rustc's first message, whole."""
    return re.split(r"\n\n", messages, maxsplit=1)[0]


def rustc_agrees(cases, edition):
    """The faults of the cases, as (name, what)."""
    faults, left = [], dict(enumerate(cases))
    with tempfile.TemporaryDirectory() as name:
        folder = pathlib.Path(name)
        while left:
            messages, well = build(folder, left, edition)
            if well:
                break
            wrong = {int(n) for n in re.findall(r"--> \S*?(?:texts|runs)/t(\d+)\.rs", messages)} & set(left)
            if not wrong:
                return faults + [("all", first_error(messages))]
            for number in wrong:
                parts = [part for part in messages.split("\n\n") if re.search(rf"/t{number}\.rs", part)]
                faults.append((left.pop(number).name, "rustc: " + (parts or [first_error(messages)])[0]))
        if not left:
            return faults
        done = subprocess.run([folder / "run"], capture_output=True, text=True)
        printed = {}
        for line in done.stdout.splitlines():
            if line.startswith("# "):
                here = printed.setdefault(line[2:], [])
            else:
                here.append(line)
        for number, case in left.items():
            for bus, _ in case.buses:
                got = printed.get(f"{number} {bus}")
                if got != case.expected[bus]:
                    faults.append((case.name, f"on the bus {bus} rustc gives\n" + "\n".join(got or [done.stderr])
                                   + "\nand the registers give\n" + "\n".join(case.expected[bus])))
                    break
    return faults


class Program:
    def __init__(self, path, commands):
        self.path, self.commands = path, commands

    def prints(self, command, *words, **files):
        """What a command writes whose words are the names of files, then others; and its line where it doesn't end well."""
        words = [word for name in files for word in (["--patch", name] if name == "patch" else [name])] + list(words)
        with tempfile.TemporaryDirectory() as folder:
            for name, content in files.items():
                pathlib.Path(folder, name).write_text(content)
            done = subprocess.run([self.path, command, *words], cwd=folder, capture_output=True, text=True)
        return done.stdout, done.stderr.strip() if done.returncode else None

    def faults(self, case):
        """Where a command prints other events."""
        for command in self.commands:
            source = {"exec": {"crate": case.text}, "run": case.files}[command]
            for bus in ("zero", "memory"):
                got, line = self.prints(command, "--bus", bus, **source, script=case.script)
                if line or got.splitlines() != case.expected[bus]:
                    yield case.name, f"{command} on the bus {bus}: {line}\n{got}"


def text_of(name, files, program, faults):
    """The crate text of a description, the program's where it prints one: both must be the same."""
    own = crate_text.printed(resolved(files))
    if program is None:
        return own
    printed, line = program.prints("generate", **files)
    if line or printed != own:
        faults.append((name, line or "generate prints another text than crate_text.py"))
    return own if line else printed


def gallery(folder, program, faults):
    for path in sorted(pathlib.Path(folder).glob("*.svd")):
        files = {"svd": path.read_text()}
        if path.with_suffix(".yaml").exists():
            files["patch"] = path.with_suffix(".yaml").read_text()
        rng = random.Random(path.stem)
        text = text_of(path.stem, files, program, faults)
        case = Case(path.stem, files, text, path.with_suffix(".script").read_text(), [rng.getrandbits(64) for _ in range(40)])
        if path.with_suffix(".rs").read_text() != text:
            faults.append((path.stem, "its crate text is another"))
        if path.with_suffix(".events").read_text().splitlines() != case.expected["memory"]:
            faults.append((path.stem, "its events are others:\n" + "\n".join(case.expected["memory"])))
        yield case


def at_random(count, seed, program, faults):
    for k in range(count):
        rng = random.Random(seed + k)
        description, statements = random_device.case(rng, deriving=k % 2 == 1, arrays=k % 4 > 1)
        name, files = f"random {seed + k}", {"svd": description}
        text = text_of(name, files, program, faults)
        yield Case(name, files, text, statements, [rng.getrandbits(64) for _ in range(12)])


def known(edition):
    """The faults of what rustc is known to refuse although the text fits, and of what stands just beside it."""
    fields = "".join(f"<field><name>{name}</name><bitOffset>{bit}</bitOffset></field>"
                     for bit, name in enumerate(("INTO", "TRY_INTO")))

    def agrees(base, registers, statements):
        made = "".join(f"<register><name>{name}</name><addressOffset>{offset}</addressOffset><fields>{fields}</fields>"
                       "</register>" for name, offset in registers.items())
        description = (f"<device><name>D</name><peripherals><peripheral><name>T</name><baseAddress>{base}</baseAddress>"
                       f"<registers>{made}</registers></peripheral></peripherals></device>")
        files = {"svd": description}
        text = crate_text.printed(resolved(files))
        return not rustc_agrees([Case("known", files, text, statements, [3])], edition)

    into, plain = {"INTO": 0, "TRY_INTO": 4}, {"A": 4}
    rows = [
        ("a block of 2^61 bytes", False, 8, {"A": 0, "B": 2**61 - 4}, "T.b().reset();"),
        ("a block of 2^61 - 4 bytes", True, 8, {"A": 0, "B": 2**61 - 8}, "T.b().reset();"),
        ("a register INTO under a slot", False, 8, into, "T.into().reset();"),
        ("a register TRY_INTO under a slot", False, 8, into, "T.try_into().reset();"),
        ("a field INTO of a bound name", False, 8, plain, "let a = T.a().read();\nsay(a.into().bit());"),
        ("a field TRY_INTO of a bound name", False, 8, plain, "let a = T.a().read();\nsay(a.try_into().bit());"),
        ("fields INTO and TRY_INTO of r and w", True, 8, plain,
         "T.a().modify(|r, w| w.into().bit(!r.into().bit()).try_into().bit(r.try_into().bit()));"),
        ("a block at address 0", False, 0, plain, "T.a().reset();"),
        ("a block at address 4", True, 4, plain, "T.a().reset();"),
    ]
    for name, wanted, base, registers, statements in rows:
        if agrees(base, registers, statements) != wanted:
            yield name, "rustc doesn't agree" if wanted else "rustc agrees"


def main():
    parser = argparse.ArgumentParser()
    parser.add_argument("--program")
    parser.add_argument("--command", action="append", choices=["exec", "run"], default=[])
    parser.add_argument("--edition", default="2021")
    parser.add_argument("what", choices=["gallery", "random", "known"])
    parser.add_argument("words", nargs="*")
    words = parser.parse_args()
    program = Program(pathlib.Path(words.program).resolve(), words.command) if words.program else None
    faults, cases = [], []
    if words.what == "gallery":
        cases = list(gallery(words.words[0], program, faults))
    elif words.what == "random":
        cases = list(at_random(int(words.words[0]), int(words.words[1]), program, faults))
    if shutil.which("rustc") is None:
        print("rustc isn't there: texts and events were compared, and nothing was compiled")
    else:
        for first in range(0, len(cases), EACH):
            faults += rustc_agrees(cases[first:first + EACH], words.edition)
        faults += known(words.edition) if words.what == "known" else []
    for case in cases if program else []:
        faults += program.faults(case)
    for name, what in faults:
        print(f"{name}: {what}", file=sys.stderr)
    if words.what == "random" and not faults:
        print(f"{len(cases)} agree")
    sys.exit(bool(faults))


if __name__ == "__main__":
    main()
