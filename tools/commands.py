"""Command lines over small files, for the checks that let the outside fail: the files, the commands that make further files of them,
the commands that are tried, and what each answers, which stands in tools/commands.expected.

What is expected comes from an independent model of the assembler, linker, librarian, board and debugger, which is no part of this
repository; the program's own output is nowhere what it is judged by. A command that the model has not (`vcd`, `explain`, maps,
listings, profiles) has `any` there: of such a file it is asked only that it is as it was, or new and ended by a whole line.
"""
import hashlib
import os
import shutil
import subprocess

TOP = os.path.dirname(os.path.dirname(os.path.realpath(__file__)))

PULSE = " CSEG AT 2080H\n LDB 06H,#20H\n LD 04H,#10\nL: SJMP L\n END\n"
NOP_HEX = ":10208000FDFFFFFFFFFFFFFFFFFFFFFFFFFFFFFF62\n:00000001FF\n"

# Files by name, beside the sources of examples/engine.
TEXTS = {
    "nop.a96": " CSEG AT 2080H\n NOP\n END\n",
    "pulse.a96": PULSE,
    "good.trace": "P 180 HSO0 1\nX 200 spent\n",
    "good.rules": "mark TOP = HSI0 rise\nafter each TOP, HSO0 rise within 60 to 90\nHSO0 high for at least 20\nnever reset\n",
    "again.a96": " CSEG AT 2080H\n RST\n END\n",
    "takes.a96": " EXTRN X\n CSEG\n LJMP X\n END\n",
    "gives.a96": " PUBLIC A\n CSEG\nA: NOP\n END\n",
    "at.a96": " CSEG AT 2100H\n NOP\n END\n",
    "large.a96": " RSEG\n DSB 229\n END\n",
    "near.a96": " EXTRN T\n CSEG\n JE T\n END\n",
    "far.a96": " PUBLIC T\n CSEG AT 3000H\nT: NOP\n END\n",
    "faulty.a96": "M MACRO\n M\n ENDM\n M\n END\n",
    "turns.stm": "@100 HSI0 1\n@120 HSI0 0\n@300 HSI0 1\n@320 HSI0 0\n",
    "falls.stm": "@5 HSI0 1\n@4 HSI0 0\n",
    "good.ana": "@0 0 512\n@40 1 7\n",
    "good.lines": "2080 NOP 2\n",
    "good.map": "public 2080 FIRST NOP\n",
    "good.notes": "loop NOP:2 3\n",
    "nop.hex": NOP_HEX,
    "damaged.hex": NOP_HEX.replace("62\n", "63\n", 1),
    "good.scr": "s 1\nm 0018 2\nl\nq\n",
    "bad.scr": "z\n",
}

# Commands that make the files of later ones.
MADE = [
    "asm nop.a96 --out nop.obj",
    "asm pulse.a96 --out pulse.obj",
    "link pulse.obj --out pulse.hex",
    "asm main.a96 --out main.obj",
    "asm crank.a96 --out crank.obj",
    "asm log.a96 --out log.obj",
    "lib main.obj crank.obj log.obj --out all.lib",
]

ROWS = [
    "run pulse.a96 --states 100",
    "run again.a96 --states 10 --lives 9",
    "run takes.a96 --states 1",
    "run gives.a96 gives.a96 --states 1",
    "run at.a96 at.a96 --states 1",
    "run large.a96 --states 1",
    "run near.a96 far.a96 --states 1",
    "run faulty.a96 --states 1",
    "run main.a96 crank.a96 log.a96 --states 500 --stim turns.stm",
    "run nop.a96 --states 1 --stim falls.stm",
    "run nop.a96 --states 1 --analog good.ana",
    "run pulse.a96 --states 100 --profile new.prof",
    "run pulse.a96 --states 100 --lives 2 --profile new.prof --cover new.info",
    "asm crank.a96 --out new.obj",
    "asm nop.a96 --out new.obj --list new.lst",
    "lib main.obj crank.obj log.obj --out new.lib",
    "link nop.obj --out new.hex",
    "link main.obj crank.obj log.obj --out new.hex --lines new.lines",
    "link main.obj crank.obj log.obj --out new.hex --lines new.lines --map new.map",
    "link main.obj --lib all.lib --out new.hex --lines new.lines",
    "link front.obj --out new.hex",
    "hex nop.hex --states 1",
    "hex damaged.hex --states 1",
    "dis pulse.hex 2080H-2088H",
    "debug nop.hex good.scr --lines good.lines",
    "debug nop.hex bad.scr",
    "vcd good.trace --out new.vcd",
    "vcd good.trace --stim turns.stm --analog good.ana --out new.vcd",
    "check good.trace good.rules --stim turns.stm",
    "check good.trace good.rules --clock 16000000",
    "bound nop.hex FIRST --map good.map --lines good.lines --notes good.notes",
    "bound nop.hex 2080",
    "explain E07",
    "gen 7",
    "--help",
    "--version",
    "run --states",
]

WRITING = ("--out", "--lines", "--map", "--list", "--profile", "--cover")
OLD = b"as it was\n"


def written_by(words):
    """Returns the files that a command writes."""
    found = [word for option, word in zip(words, words[1:]) if option in WRITING]
    return [] if words[0] in ("debug", "bound") else found


def read_by(words):
    """Returns the files that a command reads."""
    options = {"--stim", "--analog", "--lib", *(["--lines"] if words[0] == "debug" else ["--lines", "--map", "--notes"] if words[0] == "bound" else [])}
    found = [word for option, word in zip(words, words[1:]) if option in options]
    files = words[1 : next((at for at, word in enumerate(words) if at and word.startswith("-")), len(words))]
    return ([] if words[0] in ("explain", "gen") else files[:1] if words[0] in ("dis", "bound") else files) + found


def digest(content):
    return f"{len(content)} {hashlib.sha256(content).hexdigest()}"


def expected():
    """Returns by row the status, what is printed, and each file that is written (a digest, or `any`; no file: it is not written)."""
    rows = {}
    with open(f"{TOP}/tools/commands.expected", encoding="ascii") as file:
        for line in file:
            kind, _, rest = line.rstrip("\n").partition(" ")
            if kind == "$":
                row = rows.setdefault(rest, {"files": {}})
            elif kind == "status":
                row["status"] = int(rest)
            elif kind == "out":
                row["out"] = rest
            elif kind == "file":
                name, _, what = rest.partition(" ")
                row["files"][name] = what
    return rows


def is_as(what, content):
    """Whether some bytes are those that a digest tells; `any`: some whole lines that are not the old ones."""
    return content != OLD and content.endswith(b"\n") if what == "any" else digest(content) == what


class Folder:
    """A folder with the files, in which commands are run."""

    def __init__(self, program, scratch):
        self.program, self.folder = os.path.abspath(program), f"{scratch}/files"
        os.mkdir(self.folder)
        for name in ("main", "crank", "log"):
            shutil.copy(f"{TOP}/examples/engine/{name}.a96", self.folder)
        for name, text in TEXTS.items():
            self.put(name, text.encode())
        for line in MADE:
            ran = self.run(line.split())
            if ran.returncode != 0:
                raise SystemExit(f"{line}: status {ran.returncode}")
        self.put("front.obj", self.held("nop.obj")[:-1])
        self.inputs = {name: self.held(name) for name in self.names()}

    def put(self, name, content):
        with open(f"{self.folder}/{name}", "wb") as file:
            file.write(content)

    def held(self, name):
        """Returns what a file holds; None where there is none."""
        try:
            with open(f"{self.folder}/{name}", "rb") as file:
                return file.read()
        except FileNotFoundError:
            return None

    def names(self):
        return sorted(os.listdir(self.folder))

    def run(self, words, **environment):
        how = {"cwd": self.folder, "stdin": subprocess.DEVNULL, "capture_output": True, "timeout": 60}
        return subprocess.run([self.program, *words], env={**environment, "PATH": os.environ["PATH"]}, **how)

    def clear(self, words, old):
        """Puts an old file in the place of each that a command writes, or none."""
        for name in written_by(words):
            if old:
                self.put(name, OLD)
            elif os.path.exists(f"{self.folder}/{name}"):
                os.remove(f"{self.folder}/{name}")

    def touched(self):
        """Returns the inputs that are not as they were."""
        return [name for name, content in self.inputs.items() if self.held(name) != content]

    def beside(self, words):
        """Returns what stands in the folder beside the inputs and what a command writes."""
        return sorted(set(self.names()) - {*self.inputs, *written_by(words)})


def built(scratch):
    """Returns the library tools/failing.c, or None where no C compiler is there."""
    compiler = os.environ.get("CC", "cc")
    if not shutil.which(compiler):
        return None
    library = f"{scratch}/failing.so"
    subprocess.run([compiler, "-O1", "-shared", "-fPIC", "-o", library, f"{TOP}/tools/failing.c", "-ldl"], check=True)
    return library
