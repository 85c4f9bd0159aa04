"""Compares the listing program with a second listing, which is written from document 01 alone, and with the stored
runs. With --jobs, prints the second listing instead.
"""

import argparse
import contextlib
import pathlib
import random
import shutil
import subprocess
import sys
import time

WINDOW = 4
POOL_BYTES = 32768
ENTRIES = 1024
RECIPE_PLACES = 1024
LONGEST_JOB = 16384

# The jobs of the stored runs. Beside each is its listing.
HERE = pathlib.Path(__file__).parent
STORED = sorted([*(HERE.parent / "docs/example").glob("*.zpl"), *(HERE / "runs").glob("*.job")])

JOB_LENGTH, RECIPE_FULL, DIRECTORY_FULL, POOL_FULL = 3, 6, 7, 8


def is_maximum_point(chunk, i, window):
    """Whether the byte at i, counted from 0, is the first of the chunk or larger than all before it, and not smaller
    than any of the `window` bytes after it, all of which exist."""
    after = chunk[i + 1 : i + 1 + window]
    if len(after) < window or chunk[i] < max(after):
        return False
    return i == 0 or max(chunk[:i]) < chunk[i]


def chunks(job, window=WINDOW):
    """The chunks of a job: each ends `window` places after its first maximum point, and what remains is the last."""
    found = []
    while job:
        ends = (i + 1 + window for i in range(len(job)) if is_maximum_point(job, i, window))
        length = next(ends, len(job))
        found.append(job[:length])
        job = job[length:]
    return found


class Store:
    """Chunks by number, in a pool and a directory of limited size."""

    def __init__(self, window=WINDOW):
        self.window = window
        self.numbers = {}
        self.filled = 0

    def take(self, job):
        """The refusal, and the frames of the chunks: number, position, length and 1 for new."""
        if not job:
            return JOB_LENGTH, []
        numbers, filled, frames, position = dict(self.numbers), self.filled, [], 0
        for chunk in chunks(job, self.window):
            if len(frames) == RECIPE_PLACES:
                return RECIPE_FULL, []
            new = chunk not in numbers
            if new:
                if len(numbers) == ENTRIES:
                    return DIRECTORY_FULL, []
                if POOL_BYTES - filled < len(chunk):
                    return POOL_FULL, []
                numbers[chunk] = len(numbers)
                filled += len(chunk)
            frames.append((numbers[chunk], position, len(chunk), int(new)))
            position += len(chunk)
        self.numbers, self.filled = numbers, filled
        return 0, frames


def listing(job, store=None):
    """The text of a job's frames."""
    refusal, frames = (JOB_LENGTH, []) if len(job) > LONGEST_JOB else (store or Store()).take(job)
    new_bytes = sum(length for _, _, length, new in frames if new)
    last = (0xFFFF, 0, 0, refusal) if refusal else (0xFFFF, new_bytes, len(job), 0)
    return "".join("%04X%08X%08X%02X\n" % frame for frame in [*frames, last]).encode()


def label(dice):
    """A label as a printer gets it: the same commands each time, with other fields."""
    return (
        "^XA^CI28^PW812^LL406\n"
        f"^FO40,30^A0N,36,36^FD{dice.choice(['SCREW M4X16', 'HEX NUT M4', 'CABLE TIE 200', 'FUSE 10A'])}^FS\n"
        f"^FO40,80^A0N,28,28^FDArt. {dice.randint(100000, 999999)}-{dice.randint(0, 99):02}^FS\n"
        f"^FO40,120^A0N,28,28^FDLot {dice.randint(1, 99999999):08}^FS\n"
        f"^FO40,210^BY2^BCN,100,Y,N,N^FD>;{dice.randint(10**11, 10**12 - 1)}^FS\n"
        f"^PQ{dice.randint(1, 4)},0,1,Y^XZ\n"
    ).encode()


def rises(dice, size):
    """Runs of rising bytes, whose chunks are long."""
    job = bytearray()
    while len(job) < size:
        step = dice.randint(1, 40)
        job += bytes(range(dice.randint(0, 60), 256, step)) + bytes(dice.randint(0, 6))
    return bytes(job[:size])


def inputs(dice):
    """The inputs, each after its description."""
    for size in (0, 1, 2, 4, 5, 6, 9, 10, 11, 12, 255, 256, 5119, 5120, 5121, 8192, 16383, 16384, 16385, 16386, 200000):
        yield f"{size} equal bytes", b"A" * size
        yield f"{size} rising bytes", bytes(i % 256 for i in range(size))
        yield f"{size} bytes in rises", rises(dice, size)
        yield f"{size} random bytes", dice.randbytes(size)
    for alphabet in (1, 2, 3, 5, 16, 256):
        for n in range(120):
            size = dice.randint(0, dice.choice((40, 400, 6000, LONGEST_JOB)))
            job = bytes(dice.randrange(alphabet) for _ in range(size))
            yield f"random {n} of {size} bytes over {alphabet} values", job
    for n in range(120):
        size = dice.randint(0, LONGEST_JOB)
        yield f"rises {n} of {size} bytes", rises(dice, size)
    for n in range(120):
        job = b"".join(label(dice) for _ in range(dice.randint(1, 12)))
        yield f"{n}: labels of {len(job)} bytes", job
        part = b"".join(dice.choice((job[:300], job[100:500], label(dice))) for _ in range(dice.randint(1, 12)))
        yield f"{n}: parts of labels, {len(part)} bytes", part


def split(dice, job):
    """A job in parts of any length up to a quarter of what is left, so that reads are short."""
    while job:
        n = dice.randint(1, max(1, len(job) // 4))
        yield job[:n]
        job = job[n:]


def run(program, job):
    """A run with the job as standard input."""
    return subprocess.run([program], input=job, capture_output=True)


def run_slowly(program, parts):
    """A run whose standard input is a pipe that brings one part at a time. The program reads no more than it needs to
    see that a job is too long, so the pipe may break."""
    pipe = subprocess.PIPE
    with subprocess.Popen([program], stdin=pipe, stdout=pipe, stderr=pipe, bufsize=0) as process:
        with contextlib.suppress(BrokenPipeError):
            for part in parts:
                process.stdin.write(part)
                time.sleep(0.003)
        printed, messages = process.communicate()
    return subprocess.CompletedProcess(process.args, process.returncode, printed, messages)


def run_by_shell(program, redirection):
    """A run with standard input or output redirected."""
    return subprocess.run(["/bin/sh", "-c", f'exec "$0" {redirection}', program], capture_output=True, check=True)


def expect_message(what, done, beginning):
    """Ends the comparison unless a line on standard error begins so."""
    if not any(line.startswith(beginning) for line in done.stderr.splitlines()):
        sys.exit(f"{what}: standard error is {done.stderr!r}, without {beginning!r}")


class Comparison:
    """Counts the runs that agree, and ends at the first that does not."""

    def __init__(self):
        self.agree = 0
        self.refusals = {}

    def check(self, what, done, expected):
        """Compares what a run printed. Standard error must be empty if the job is accepted, and only then."""
        if done.returncode != 0:
            sys.exit(f"{what}: the exit status is {done.returncode}")
        if done.stdout != expected:
            lines = list(zip(done.stdout.split(b"\n"), expected.split(b"\n")))
            place = next((i for i, (a, b) in enumerate(lines) if a != b), len(lines) - 1)
            sys.exit(f"{what}: line {place + 1} is {lines[place][0]!r}, and not {lines[place][1]!r}")
        refusal = expected[-3:-1].decode()
        if (done.stderr == b"") != (refusal == "00"):
            sys.exit(f"{what}: the refusal is {refusal}, and standard error is {done.stderr!r}")
        self.agree += 1
        self.refusals[refusal] = self.refusals.get(refusal, 0) + 1


def compare(program):
    """Runs the program over all inputs. The pool is never full, since it has twice the bytes of the longest job, nor is
    the directory, since the recipe has as many places and is tested first."""
    dice = random.Random(20240501)
    comparison = Comparison()
    for what, job in inputs(dice):
        comparison.check(what, run(program, job), listing(job))
    for path in STORED:
        job = path.read_bytes()
        done = run(program, job)
        comparison.check(f"{path}, by the stored listing", done, path.with_suffix(".listing").read_bytes())
        comparison.check(f"{path}, by the second listing", done, listing(job))
    for n in range(40):
        job = dice.choice((label(dice) * 3, dice.randbytes(600), rises(dice, 3000), b"A" * 16390))
        comparison.check(f"short reads {n}", run_slowly(program, split(dice, job)), listing(job))
    for redirection in ("< .", "<&-"):
        done = run_by_shell(program, redirection)
        comparison.check(f"unread input, {redirection}", done, listing(b""))
        expect_message(redirection, done, b"listing: standard input: ")
    done = run_by_shell(program, "< /dev/null > /dev/full")
    expect_message("> /dev/full", done, b"listing: standard output: ")
    return comparison


def show(jobs):
    """Prints the second listing of jobs that are taken into one store, one after another."""
    store = Store()
    for path, job in jobs:
        print(path)
        print(listing(job, store).decode(), end="")


def named_job(path):
    """The path and the bytes of a job."""
    try:
        return path, pathlib.Path(path).read_bytes()
    except OSError as fault:
        raise argparse.ArgumentTypeError(f"{path}: {fault.strerror}") from None


def main():
    parser = argparse.ArgumentParser(description=__doc__)
    words = parser.add_mutually_exclusive_group()
    words.add_argument(
        "program", nargs="?", metavar="PROGRAM", default="target/bin/listing", help="the listing program (%(default)s)"
    )
    words.add_argument("--jobs", nargs="+", type=named_job, metavar="FILE", help="jobs to take into one store, in order")
    chosen = parser.parse_args()
    if chosen.jobs:
        return show(chosen.jobs)
    if shutil.which(chosen.program) is None:
        parser.error(f"{chosen.program}: no such program")
    comparison = compare(chosen.program)
    refusals = ", ".join(f"{n} with refusal {r}" for r, n in sorted(comparison.refusals.items()))
    print(f"listing: {comparison.agree} listings agree ({refusals})")


if __name__ == "__main__":
    main()
