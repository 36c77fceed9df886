#!/usr/bin/env python3
"""Compares `doac seq`, or `doac run`, with gfortran on random programs, and makes what differs small.

trials.py [--count N] [--seed S] [--opening] [--threads P S] [--doac PROGRAM] [--batch N] [--jobs N]
          [--keep FOLDER]
"""

import argparse
import bisect
import concurrent.futures
import os
import re
import subprocess
import sys
import tempfile

from opening import OpenMaker
from programs import Maker, Writer, smaller

FLAGS = ["-std=legacy", "-fdefault-integer-8", "-fcheck=all", "-ftrapv", "-ffixed-form",
         "-finit-local-zero", "-fno-range-check", "-fmax-errors=0", "-O0", "-w"]
SECONDS = 20


class Answer:
    """What a run gave: its records without blanks, and how it ended."""

    def __init__(self, records, end):
        self.records = records
        self.end = end

    def __eq__(self, other):
        return self.records == other.records and self.end == other.end

    def __str__(self):
        return "\n".join(self.records + [f"({self.end})"])


def records_of(output):
    return [line.replace(" ", "") for line in output.split("\n")[:-1]]


# ---- doac

FAULT = re.compile(r"^FAULT\d[A-Z]+LINE\d+$")


def run_doac(doac, source, data, folder):
    path = os.path.join(folder, "doac.f")
    given = os.path.join(folder, "doac.in")
    with open(path, "w") as file:
        file.write(source)
    with open(given, "w") as file:
        file.write(data)
    run = subprocess.run([*doac, path, given], capture_output=True, text=True, timeout=SECONDS)
    records = records_of(run.stdout)
    if run.returncode == 0:
        if records and re.match(r"^STOPPEDLINE\d+$", records[-1]):
            return Answer(records[:-1], "STOP")
        return Answer(records, "END")
    if run.returncode == 2 and records and FAULT.match(records[-1]):
        kind = re.sub(r"^FAULT\d([A-Z]+)LINE\d+$", r"\1", records[-1])
        return Answer(records[:-1], kind)
    return Answer(records, f"status {run.returncode}: {run.stderr.strip()}")


# ---- gfortran

MAIN = """      PROGRAM TRIALS
      CHARACTER*8 WORD
      INTEGER*8 NUMBER
      CALL GETARG(1,WORD)
      READ(WORD,'(I8)') NUMBER
{calls}
      END
"""

CALL = """      IF (NUMBER.EQ.{number}) THEN
      CALL T{number}
      WRITE(0,'(A)') 'ENDED'
      END IF
"""


def compiled(programs, folder):
    """One binary of several programs, each a subroutine, and what gfortran says of them."""
    path = os.path.join(folder, "batch.f")
    binary = os.path.join(folder, "batch")
    ends = []
    lines = 0
    with open(path, "w") as file:
        for number, program in programs:
            text = Writer(program).source(f"SUBROUTINE T{number}")
            file.write(text)
            lines += text.count("\n")
            ends.append(lines)
        calls = "".join(CALL.format(number=number) for number, _ in programs)
        file.write(MAIN.format(calls=calls.rstrip("\n")))
    made = subprocess.run(["gfortran", *FLAGS, "-o", binary, path], capture_output=True, text=True)
    return (binary if made.returncode == 0 else None), refused_lines(made.stderr), ends


def refused_lines(complaints):
    """The lines of batch.f at which gfortran says 'Error'."""
    lines, at = set(), None
    for complaint in complaints.split("\n"):
        place = re.match(r"^\S*batch\.f:(\d+):", complaint)
        if place:
            at = int(place.group(1))
        elif complaint.startswith("Error:") and at is not None:
            lines.add(at)
    return lines


def compile_batch(programs, folder):
    """A binary of the programs that gfortran takes, and their numbers; None where it takes none."""
    left = list(enumerate(programs))
    while left:
        binary, refused, ends = compiled(left, folder)
        if binary:
            return binary, [number for number, _ in left]
        at_fault = {bisect.bisect_left(ends, line) for line in refused}
        left = [one for at, one in enumerate(left) if at not in at_fault] if at_fault else left[:-1]
    return None, []


def end_of(code, complaint):
    if "ENDED" in complaint.split("\n"):
        return "END"
    if "End of file" in complaint:
        return "ENDOFINPUT"
    if "Bad integer" in complaint or "Bad repeat" in complaint:
        return "BADINPUT"
    if "bound" in complaint and "runtime error" in complaint:
        return "INDEX"
    if "DO step" in complaint or "step" in complaint and "runtime error" in complaint:
        return "ZEROSTEP"
    if code == -6:
        return "OVERFLOW"
    if code == -8:
        return "ZERODIVISOR"
    if code < 0 or "runtime error" in complaint:
        return f"code {code}: {complaint.strip()}"
    return "STOP"


def run_gfortran(binary, number, data):
    environment = {**os.environ, "GFORTRAN_UNBUFFERED_PRECONNECTED": "y", "GFORTRAN_ERROR_BACKTRACE": "0"}
    run = subprocess.run([binary, str(number)], input=data, capture_output=True, text=True,
                         timeout=SECONDS, env=environment)
    return Answer(records_of(run.stdout), end_of(run.returncode, run.stderr))


# ---- trials

def data_of(program):
    return "".join(line + "\n" for line in program["input"])


def differs(doac, program, folder):
    """The two answers where they differ; None where they agree or gfortran refuses the program."""
    binary, _ = compile_batch([program], folder)
    if binary is None:
        return None
    try:
        theirs = run_gfortran(binary, 0, data_of(program))
        ours = run_doac(doac, Writer(program).source(), data_of(program), folder)
    except subprocess.TimeoutExpired:
        return None
    return None if ours == theirs else (ours, theirs)


def sort_of(answers):
    """What sort of difference two answers show: a refusal of doac's by its number, or another."""
    ours, _ = answers
    refused = re.match(r"^REFUSED\d+", ours.records[0]) if ours.end.startswith("status 1") else None
    return refused.group() if refused else "answers"


def shrunk(doac, program, folder):
    """The program, made smaller as long as the two answers differ in the same way."""
    answers = differs(doac, program, folder)
    found = answers is not None
    while found:
        found = False
        for less in smaller(program):
            now = differs(doac, less, folder)
            if now and sort_of(now) == sort_of(answers):
                program, found = less, True
                break
    return program


def try_batch(doac, maker, seeds):
    """Tries the programs of the seeds: how many were compared, and those that differ."""
    programs = [maker(seed).program() for seed in seeds]
    compared, different = 0, []
    with tempfile.TemporaryDirectory() as folder:
        binary, numbers = compile_batch(programs, folder)
        for number in numbers:
            program = programs[number]
            try:
                theirs = run_gfortran(binary, number, data_of(program))
                ours = run_doac(doac, Writer(program).source(), data_of(program), folder)
            except subprocess.TimeoutExpired:
                continue
            compared += 1
            if ours != theirs:
                different.append(program)
    return compared, different


def report(doac, program, keep):
    with tempfile.TemporaryDirectory() as folder:
        small = shrunk(doac, program, folder)
        ours, theirs = differs(doac, small, folder) or ("(agrees again)", "(agrees again)")
        source = Writer(small).source()
        print(f"--- a difference\n{source}", end="")
        if small["input"]:
            print(f"--- with the input\n{data_of(small)}", end="")
        print(f"--- doac\n{ours}\n--- gfortran\n{theirs}\n")
        if keep:
            os.makedirs(keep, exist_ok=True)
            number = len(os.listdir(keep))
            with open(os.path.join(keep, f"{number}.f"), "w") as file:
                file.write(source)


def main():
    here = os.path.dirname(os.path.abspath(__file__))
    parser = argparse.ArgumentParser(description=__doc__.split("\n")[0])
    parser.add_argument("--count", type=int, default=1000, help="how many programs (1,000)")
    parser.add_argument("--seed", type=int, default=1, help="the first program's seed (1)")
    parser.add_argument("--doac", default=os.path.join(here, "..", "doac"), help="the binary to try")
    parser.add_argument("--batch", type=int, default=50, help="programs in one compilation (50)")
    parser.add_argument("--jobs", type=int, default=os.cpu_count(), help="batches at once")
    parser.add_argument("--keep", help="a folder for the programs that differ")
    parser.add_argument("--opening", action="store_true", help="programs whose loops mostly open")
    parser.add_argument("--threads", nargs=2, metavar=("P", "S"), help="run in P threads with S iterations open")
    options = parser.parse_args()
    sizes = ["run", "-p", options.threads[0], "-s", options.threads[1]] if options.threads else ["seq"]
    doac, maker = [options.doac, *sizes], OpenMaker if options.opening else Maker
    seeds = list(range(options.seed, options.seed + options.count))
    batches = [seeds[at:at + options.batch] for at in range(0, len(seeds), options.batch)]
    compared, different = 0, []
    with concurrent.futures.ThreadPoolExecutor(options.jobs) as pool:
        for count, found in pool.map(lambda batch: try_batch(doac, maker, batch), batches):
            compared += count
            different += found
    for program in different[:10]:
        report(doac, program, options.keep)
    print(f"{options.count} programs: {compared} compared, {options.count - compared} not, {len(different)} differ")
    return 1 if different else 0


if __name__ == "__main__":
    sys.exit(main())
