"""Runs sessions and judges their answers."""
import os
import random
import re
import select
import shutil
import signal
from typing import NamedTuple

import sessions

SECONDS = 60
WIDTH = 1000
ENDLESS = f"no end within {SECONDS} seconds"
FORM = re.compile(rb"TRUE|FALSE|step \d+ [a-z]+ \d+ \d+|error \d+: F\d\d [A-Z][A-Za-z]+( [^\n]*)?|\[\]|(\[-?\d+(,-?\d+)*\])+")
LISTED = re.compile(r"\[.*\]")
FAULT = re.compile(r"error (\d+): (F\d\d.*)")
STEP = re.compile(r"step (\d+) \w+ (\d+) (\d+)")
# Says where the lines end of a command that prints some.
BEHIND = 'eval behind "0=0";'
# The faults that a session of valid commands may have: limits.
LIMITS = ("F18", "F19")


class Outcome(NamedTuple):
    """What a command gave: its fault, its verdict, the widths of its steps, the text that it stored, and the words that it listed."""

    fault: str
    verdict: object
    widths: list
    text: str
    lines: list


class Room:
    """A folder for sessions, with the ready-made words and systems, which becomes the folder of this process."""

    def __init__(self, folder):
        self.script, self.output, work = f"{folder}/script", f"{folder}/output", f"{folder}/work"
        shutil.copytree(sessions.LIBRARY, work)
        os.chdir(work)
        self.given = set(self.files())

    def files(self):
        """The files in folders of this one."""
        return [file.path for entry in os.scandir(".") if entry.is_dir() for file in os.scandir(entry.path)]

    def fill(self, files):
        for name, text in files.items():
            os.makedirs(os.path.dirname(name), exist_ok=True)
            write(name, text if isinstance(text, bytes) else text.encode())

    def clean(self):
        """Removes what a session has written."""
        for path in self.files():
            if path not in self.given:
                os.unlink(path)

    def run(self, program, script, words):
        """The status and the output of the program, or none where it did not end."""
        write(self.script, script)
        files = [(os.POSIX_SPAWN_OPEN, 0, self.script, os.O_RDONLY, 0),
                 (os.POSIX_SPAWN_OPEN, 1, self.output, os.O_WRONLY | os.O_CREAT | os.O_TRUNC, 0o600),
                 (os.POSIX_SPAWN_OPEN, 2, os.devnull, os.O_WRONLY, 0)]
        status = status_of(os.posix_spawn(program, [program, *words], os.environ, file_actions=files))
        return status, b"" if status is None else read(self.output)

    def text_of(self, file):
        text = read(file) if file else None
        return None if text is None else text.decode()


def write(path, data):
    with open(path, "wb", buffering=0) as file:
        file.write(data)


def read(path):
    """The bytes of a file, or none where there is no file."""
    try:
        with open(path, "rb", buffering=0) as file:
            return file.read()
    except FileNotFoundError:
        return None


def status_of(process):
    """How a process ended, or none where it did not in time."""
    waits = os.pidfd_open(process)
    has_ended = bool(select.select([waits], [], [], SECONDS)[0])
    os.close(waits)
    if not has_ended:
        os.kill(process, signal.SIGKILL)
    status = os.waitpid(process, 0)[1]
    return os.waitstatus_to_exitcode(status) if has_ended else None


def script_of(commands, rng, shows_all):
    """The script of commands, one a line, with the line of each and whether it shows its steps. A sentence follows steps and lists."""
    lines, at = [], []
    for it in commands:
        if rng.random() < 0.05:
            lines.append("# a comment; with a sign")
        shows = shows_all or rng.random() < 0.1
        at.append((len(lines) + 1, shows))
        lines.append(f"{it.text}{'::' if shows else ';'}" + (BEHIND if shows or it.is_list else ""))
    return "\n".join(lines) + "\n", at


def outcomes_of(commands, at, output, room):
    """The outcome of each command, and what of the output belongs to none."""
    left, found = output.decode().splitlines()[::-1], {}
    for it, (line, shows) in zip(commands, at):
        widths = []
        while shows and left and STEP.fullmatch(left[-1]):
            widths.append(int(STEP.fullmatch(left.pop())[2]))
        fault = FAULT.fullmatch(left[-1]) if left else None
        is_refused = bool(fault) and int(fault[1]) == line
        verdict = left.pop() if left and (is_refused or it.is_sentence) else ""
        lines = []
        while it.is_list and left and LISTED.fullmatch(left[-1]):
            lines.append(left.pop())
        verdict = {"TRUE": True, "FALSE": False}.get(verdict)
        found[it.name] = Outcome(fault[2] if is_refused else "", verdict, widths, room.text_of(it.file), lines)
        if (shows or it.is_list) and (left.pop() if left else "") != "TRUE":
            left.append(f"no end of {it.name}")
    return found, left[::-1]


def answers(session, program, room, script, at, words):
    """What came of a script: the outcomes, or what is wrong with the run as a whole."""
    room.fill(session.files)
    status, output = room.run(program, script.encode(), words)
    if status is None:
        return None, ENDLESS
    if status not in (0, 1):
        return None, f"status {status}"
    found, left = outcomes_of(session.commands, at, output, room)
    refused = any(it.fault for it in found.values())
    if left or status != int(refused):
        return None, f"status {status}, and of the output is left {left[:2]}"
    return found, ""


def faults_of(session, found):
    """What differs of the outcomes: refusals but by limits, and failed checks."""
    lost, said = set(), []
    for it in session.commands:
        outcome = found[it.name]
        if outcome.fault.startswith(LIMITS) or outcome.fault.startswith("F11") and lost:
            lost.add(it.name)
        elif outcome.fault:
            said.append(f"refused: {outcome.fault} of {it.text}")
            lost.add(it.name)
        elif outcome.text is None and it.file:
            said.append(f"stored nothing: {it.text}")
            lost.add(it.name)
        elif it.is_sentence and it.file and outcome.text != f"{str(outcome.verdict).lower()}\n":
            said.append(f"prints {outcome.verdict} and stores {outcome.text!r}: {it.text}")
    for check in session.checks:
        if not lost & set(check.names):
            differs = check.test(*(found[name] for name in check.names))
            said += [f"{check.what}: {differs}, in {' '.join(check.names)}"] if differs else []
    return said


def limited_faults(session, wide, narrow, limit):
    """What differs where no step may be wider than a limit: the first wider step refuses its command, and nothing else does."""
    said, lost = [], False
    for it in session.commands:
        one, other = wide[it.name], narrow[it.name]
        step = next((at for at, width in enumerate(one.widths, 1) if width > limit), None)
        if other.fault.startswith("F11") and lost or one.fault:
            lost = True
            continue
        wanted = f"F19 States step {step}" if step else ""
        if other.fault != wanted or other.text != (None if step else one.text):
            said.append(f"limit {limit}: {other.fault or 'accepted'}, not {wanted or 'accepted'}, or another text: {it.text}")
        lost = lost or bool(step)
    return said


def noise(rng, session, program, room, script):
    """What is wrong where some bytes of the script or of a file are changed."""
    def changed(data):
        data = bytearray(data)
        for _ in range(rng.randint(1, 4)):
            at = rng.randrange(len(data))
            data[at:at + rng.choice([0, 1, 1])] = bytes(rng.choices(b'"();:*%#?$E~&0129[]{}->\n\r =<x_', k=rng.choice([0, 1, 1])) or [rng.randrange(256)])
        return bytes(data)
    files = {name: changed(text.encode()) if rng.random() < 0.5 else text for name, text in session.files.items()}
    script = changed(script.encode())
    room.fill(files)
    status, output = room.run(program, script, ["--states", str(WIDTH)])
    room.clean()
    strange = [line for line in output.split(b"\n") if line and not FORM.fullmatch(line)]
    if status is None:
        return [ENDLESS]
    if status in (0, 1) and not strange:
        return []
    return [f"changed bytes: status {status}, {strange[:1]}, script {script!r}, files {files!r}"]


def tried(program, room, seed):
    """The number of commands of a session, what differs, and its script."""
    session = sessions.Session(seed)
    rng = random.Random(seed + 1)
    is_limited = rng.random() < 0.2
    script, at = script_of(session.commands, rng, is_limited)
    found, wrong = answers(session, program, room, script, at, ["--states", str(WIDTH)])
    said = [wrong] if wrong else faults_of(session, found)
    room.clean()
    if is_limited and not wrong:
        limit = rng.choice([16, 20, 30, 50, 100])
        narrow, wrong = answers(session, program, room, script, at, [f"--states={limit}"])
        said += [wrong] if wrong else limited_faults(session, found, narrow, limit)
        room.clean()
    if rng.random() < 0.1 and session.commands:
        said += noise(rng, session, program, room, script)
    return len(session.commands), said, script
