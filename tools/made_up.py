"""A made-up thing by each recipe of CONTRIBUTING.md, for `tools/check_recipes --try`, which says by running that a list is enough.

In the code of a recipe's list, what says something of a witness is copied, with the made-up thing's spellings in place of the witness's.
The definitions and proofs of the list are not tried, nor what a unit and a crate of its own need.
"""
import os
import re
import subprocess

# By each recipe: where a piece of code begins that is copied for the made-up thing; which words get its own beside them; its spellings in
# place of the witness's; and further changes of files of the list.
MADE = {
    "An instruction": (
        r'^ +Xorb,$|^ +"XORB",$|^const XORB:|plain!\(Xorb|Mnemonic::Xorb =>',
        r'"XORB",(?= ")',
        [(r"\bXORB\b", "XORBX"), (r"\bXorb\b", "Xorbx"), (r"\b0x94\b", "0xE8")],
        [("table.rt", "LJMP, GAP, GAP, GAP, GAP,", "LJMP, XORBX, XORBX, XORBX, XORBX,")],
    ),
    "A register of a unit": (
        r"^ +Ioc3,$|^ +(pub )?ioc3: (u8|0),|byte!\(0x0C: IOC3|::Ioc3 => [bB]oard_?[rR]egisters",
        None,
        [(r"\bIOC3\b", "IOC4"), (r"\bIoc3\b", "Ioc4"), (r"\bioc3\b", "ioc4"), (r"\b0x0C\b", "0x0D")],
        [],
    ),
    "A pin": (
        None,
        None,
        [],
        [
            ("pins.rt", "PIN_COUNT: u8 = 41", "PIN_COUNT: u8 = 42"),
            ("pins.rt", '    pin!("PWM2", printed),', '    pin!("PWM2", printed),\n    pin!("AUX", input, printed),'),
            ("pulses.rt", "Pin::PWM2.0", "41"),
        ],
    ),
    "A directive": (
        r'"EVEN"|(Directive|Action)::Even =>|^fn even\(',
        r"\| Action::Even\b",
        [(r"\bEVEN\b", "EVENS"), (r"\b(Directive|Action)::Even\b", r"\1::Evens"), (r"\beven\(", "evens(")],
        [("words.rt", "    Even,", "    Even,\n    Evens,"), ("statement.rt", "    Even,", "    Even,\n    Evens,")],
    ),
    "A directive of the expansion": (
        r'^ +Exitm,$|"EXITM", Word|(Word|Directive)::Exitm =>',
        None,
        [(r"\bEXITM\b", "EXITN"), (r"\bExitm\b", "Exitn")],
        [("kc_macro_body/src/words.rt", "::Exitm\n", '::Exitm\n    } else if is_word(token, b"EXITN") {\n        Word::Exitn\n')],
    ),
    "A command": (
        r'^ +"explain",$|"explain" =>|Command::Explain\(explain\) =>|^fn read_explain',
        r'\| "explain"',
        [
            (r'"explain"', '"retell"'),
            (r"kc96 explain", "kc96 retell "),
            (r"\bread_explain\b", "read_retell"),
            (r"\bCommand::Explain\b", "Command::Retell"),
        ],
        [("command.rt", "    Explain(Explain<'a>),", "    Explain(Explain<'a>),\n    Retell(Explain<'a>),")],
    ),
    "A fault code of a source": (
        r'^ +NoLabel,$|SourceCode::NoLabel => 24|row!\("E24"',
        None,
        [(r"\bNoLabel\b", "Spare"), (r"\b(E?)24\b", r"\g<1>25")],
        [("branches.rt", "SourceCode::NoLabel", "SourceCode::Spare")],
    ),
    "A fault code of an object": (
        r'^ +NoName,$|ObjCode::NoName => 6|row!\("O06"',
        None,
        [(r"\bNoName\b", "Spare"), (r"=> 6", "=> 7"), (r"\bO06\b", "O07")],
        [("record_faults.rt", "at + 1, ObjCode::NoName", "at + 1, ObjCode::Spare")],
    ),
}
# What each is tried by: files, commands, and what the last one prints.
RUN = " CSEG AT 2080H\n{}\nL: SJMP L\n END\n"
TRIALS = {
    "An instruction": ({"x.a96": RUN.format(" XORBX 0FH,#1")}, ["run x.a96 --states 99"], r"^P \d+ P10 0$"),
    "Its text": ({"x.hex": ":03208000E84840ED\n:00000001FF\n"}, ["dis x.hex 2080H-2082H"], r"XORBX 40H,48H"),
    "A register of a unit": (
        {"x.a96": RUN.format(" LDB 14H,#1\n LDB 0DH,#0F7H\n LDB 40H,0DH\n LDB 14H,#0\n LDB 0FH,40H")},
        ["run x.a96 --states 99"],
        r"^P \d+ P13 0$",
    ),
    "A pin": (
        {"x.a96": RUN.format(" LDB 14H,#1\n LDB 17H,#9"), "x.stm": "@9 AUX 0\n"},
        ["run x.a96 --states 999 --stim x.stm"],
        r"^P 256 AUX 1$",
    ),
    "A directive": (
        {"x.a96": RUN.format(" NOP\n EVENS\nM: SJMP M")},
        ["asm x.a96 --out x.obj --list x.lst", "cat x.lst"],
        r" 2081 FF  +EVENS$",
    ),
    "A directive of the expansion": (
        {"x.a96": "M MACRO\n NOP\n EXITN\n BAD\n ENDM\n" + RUN.format(" M")},
        ["asm x.a96 --out x.obj", "link x.obj --out x.hex", "dis x.hex 2080H-2080H"],
        r"FD NOP",
    ),
    "A command": ({}, ["retell E07"], r"^E07"),
    "Its help": ({}, ["--help"], r"kc96 retell  CODE"),
    "Its wrong words": ({}, ["retell"], r"too few words"),
    "A fault code of a source": ({"x.a96": RUN.format(" BE 5")}, ["asm x.a96 --out x.obj"], r"E25"),
    "Its sentence": ({}, ["explain E25"], r"^E25"),
    "A fault code of an object": ({"x.obj": "\x01\x03\x00\x01\x01\x31\x7f\x00\x00"}, ["link x.obj --out x.hex"], r"^input x.obj:4: O07$"),
    "And its sentence": ({}, ["explain O07"], r"^O07"),
}


def piece_at(lines, at):
    """The lines of the piece of code that begins at one: up to where its brackets close."""
    begin = at - 1 if lines[at - 1].strip() == "(" else at
    depth, end = 0, begin
    while end < len(lines):
        depth += sum((it in "([{") - (it in ")]}") for it in lines[end])
        end += 1
        if lines[end - 1] == "}" or depth <= 0 and not lines[at].startswith("fn "):
            break
    return begin, end


def with_made(text, begins, beside, spellings):
    """Code with its pieces copied. The table in which a copy stands is longer by one."""

    def made(piece):
        for witness, own in spellings:
            piece = re.sub(witness, own, piece)
        return piece

    lines = text.split("\n")
    at, table = 0, None
    while at < len(lines):
        table = at if re.search(r"; \d+\] = \[$", lines[at]) else None if lines[at] == "];" else table
        grown = lines[at]
        if beside:
            grown = re.sub(beside, lambda it: f"{it[0]} {made(it[0])}", grown)
        is_copied = grown != lines[at]
        lines[at] = grown
        if begins and re.search(begins, lines[at]):
            begin, end = piece_at(lines, at)
            lines[end:end] = [made(line) for line in lines[begin:end]]
            at, is_copied = end + end - begin - 1, True
        if is_copied and table is not None:
            lines[table] = re.sub(r"(?<=; )\d+(?=\] = \[$)", lambda it: str(int(it[0]) + 1), lines[table])
        at += 1
    return "\n".join(lines)


def make_up(top, recipe, listed):
    """Adds the made-up thing of a recipe to the code of its list in the repository `top`, and gives what cannot be done so."""
    begins, beside, spellings, changes = MADE[recipe]
    left = list(changes)
    for path in listed:
        with open(f"{top}/{path}", encoding="utf-8") as file:
            text = with_made(file.read(), begins, beside, spellings)
        for change in changes:
            if path.endswith(change[0]) and change[1] in text:
                text = text.replace(change[1], change[2])
                left.remove(change)
        with open(f"{top}/{path}", "w", encoding="utf-8") as file:
            file.write(text)
    return [f"{recipe}: nothing in the list is {change[0]} with {change[1]!r}" for change in left]


def tried(program, folder, files, commands, wanted):
    """None where the last command prints what is wanted, else what it prints."""
    os.mkdir(folder)
    for name, text in files.items():
        with open(f"{folder}/{name}", "w", encoding="latin-1", newline="") as file:
            file.write(text)
    for command in commands:
        words = command.split() if command.startswith("cat ") else [program, *command.split()]
        ran = subprocess.run(words, cwd=folder, stdin=subprocess.DEVNULL, stdout=subprocess.PIPE, stderr=subprocess.STDOUT, timeout=60)
        text = ran.stdout.decode()
    return None if re.search(wanted, text, re.M) else text


def wrong_of(program, room):
    for number, (name, trial) in enumerate(TRIALS.items()):
        text = tried(program, f"{room}/{number}", *trial)
        if text is not None:
            yield f"{name}: the made-up one does not work: {text!r}"
