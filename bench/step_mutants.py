"""Task files near valid ones, handed to `cubes step` one by one: no crash, no hang, every answer one that is named.

    python3 bench/step_mutants.py [SEED [MINUTES]]

It makes the tasks of a small BUILD, of all five kinds, changes each in a seeded way (bytes, numbers, counts of lists, pieces moved or
dropped, the frame's fields), seals most of them with a right length and digest again, so that the change reaches the reader of tasks, and
runs the program on each, with a stop file now and then. It goes on for MINUTES (15 by default). The answer must be

    0  nothing is printed, and the product's file is a frame with the digest of the task
    1  nothing is printed
    5  the line is `fault: Stopped`, and a stop file was there
    9  the line is `fault: BadTask`

within 5 seconds; with 1, 5 and 9 the product's path stays as it was, and the task's file always. Unchanged tasks must give the wanted
product. What breaks this is kept in the folder step_mutants.SEED, and told at the end. The program is that of the environment variable
CUBES, by default ../cubes; it must be built before.
"""

import hashlib
import os
import random
import struct
import subprocess
import sys
import tempfile
import time

from step_build import HERE, body_of, build_of, frame

CUBES = os.environ.get("CUBES", os.path.join(HERE, "..", "cubes"))
MOST_SECONDS = 5
NUMBERS = [0, 1, 2, 7, 127, 128, 255, 256, 65535, 200_000, 200_001, 2**31 - 1, 2**31, 2**32 - 2, 2**32 - 1]
WIDE = [0, 1, 2**32, 2**63 - 1, 2**63, 2**64 - 1]
OLDER = b"an older product"


def put(body, at, piece, cut):
    """The body with a piece in place of so many bytes."""
    return body[:at] + piece + body[at + cut :]


def changed(source, body, others):
    """One change of a body."""
    at = source.randrange(len(body) + 1)
    how = source.randrange(10)
    if how == 0:
        return put(body, at, bytes([source.randrange(256)]), 1)
    if how == 1 and at < len(body):
        return put(body, at, bytes([body[at] ^ 1 << source.randrange(8)]), 1)
    if how == 2:
        return put(body, at, struct.pack(">I", source.choice(NUMBERS)), 4)
    if how == 3:
        return put(body, at, struct.pack(">Q", source.choice(WIDE)), 8)
    if how == 4 and at + 4 <= len(body):
        number = struct.unpack(">I", body[at : at + 4])[0]
        return put(body, at, struct.pack(">I", (number + source.choice([-1, 1])) % 2**32), 4)
    if how == 5:
        return body[:at]
    if how == 6:
        return put(body, at, b"", source.randrange(1, 64))
    if how == 7:
        piece = body[at : at + source.randrange(1, 64)]
        return put(body, at, piece, 0)
    if how == 8:
        other = source.choice(others)
        begin = source.randrange(len(other) + 1)
        return put(body, at, other[begin : begin + source.randrange(1, 256)], source.choice([0, 64]))
    return body + bytes(source.randrange(1, 9))


def sealed(source, body):
    """A frame of the body, now and then with a field of its own changed."""
    how = source.randrange(20)
    if how == 0:
        return frame(body, version=source.choice([0, 2, 65535]))
    if how == 1:
        return frame(body, digest=hashlib.sha256(body).digest())
    file = frame(body)
    if how == 2:
        return file[: source.randrange(len(file) + 1)]
    if how == 3:
        return file + b"\0"
    if how == 4:
        return put(file, 42, struct.pack(">Q", source.choice(WIDE + [len(body) - 1, len(body) + 1])) if body else b"", 8)
    if how == 5:
        at = source.randrange(len(file))
        return put(file, at, bytes([file[at] ^ 1 << source.randrange(8)]), 1)
    return file


class Child:
    """The paths that children are given."""

    def __init__(self, folder):
        self.task, self.product, self.stop = (os.path.join(folder, f"job-1-1.{kind}") for kind in ("task", "product", "stop"))

    def run(self, file, is_stopped):
        """Runs a task, and tells the name of its answer, or what is wrong with it."""
        for path, held in ((self.task, file), (self.product, OLDER), (self.stop, b"" if is_stopped else None)):
            if held is not None:
                with open(path, "wb") as out:
                    out.write(held)
            elif os.path.exists(path):
                os.remove(path)
        begun = time.monotonic()
        try:
            ended = subprocess.run([CUBES, "step", self.task, self.product, self.stop], capture_output=True, timeout=MOST_SECONDS, check=False)
        except subprocess.TimeoutExpired:
            return None, f"no answer within {MOST_SECONDS} s"
        taken = time.monotonic() - begun
        with open(self.task, "rb") as held, open(self.product, "rb") as made:
            wrong = fault_of(ended, file, held.read(), made.read(), is_stopped)
        return str(ended.returncode), wrong or (f"{taken:.1f} s" if taken > MOST_SECONDS else None)


def fault_of(ended, file, held, made, is_stopped):
    """What is wrong with an answer."""
    status, printed = ended.returncode, ended.stdout
    lines = {0: b"", 1: b"", 5: b"fault: Stopped\n", 9: b"fault: BadTask\n"}
    if status not in lines or status == 5 and not is_stopped:
        return f"the status is {status}"
    if printed != lines[status] or ended.stderr:
        return f"it prints {printed!r}, {ended.stderr!r}"
    if held != file:
        return "the task's file is changed"
    if status != 0:
        return None if made == OLDER else "the product's file is changed"
    if made != frame(body_of(made), hashlib.sha256(file).digest()):
        return "the product is no frame with the digest of its task"
    return None


def main():
    seed = int(sys.argv[1]) if len(sys.argv) > 1 else 1
    minutes = float(sys.argv[2]) if len(sys.argv) > 2 else 15
    source = random.Random(seed)
    steps = [step for count in (0, 1, 40) for step in build_of(count, seed=seed)]
    bodies = [body_of(task) for _, task, _ in steps]
    answers, wrong, kept = {}, [], f"step_mutants.{seed}"
    with tempfile.TemporaryDirectory() as folder:
        child = Child(folder)
        for name, task, product in steps:
            status, fault = child.run(task, False)
            with open(child.product, "rb") as made:
                if status != "0" or fault or made.read() != product:
                    raise SystemExit(f"the unchanged task {name} is answered with {status}: {fault or 'another product'}")
        end = time.monotonic() + 60 * minutes
        while time.monotonic() < end:
            body = source.choice(bodies)
            for _ in range(source.choice([1, 1, 1, 2, 3])):
                body = changed(source, body, bodies)
            file, is_stopped = sealed(source, body), source.random() < 0.05
            status, fault = child.run(file, is_stopped)
            answers[status] = answers.get(status, 0) + 1
            if fault:
                os.makedirs(kept, exist_ok=True)
                with open(os.path.join(kept, f"{len(wrong)}.task"), "wb") as out:
                    out.write(file)
                wrong.append(fault)
                print(f"{kept}/{len(wrong) - 1}.task: {fault}")
    said = ", ".join(f"{status}: {count}" for status, count in sorted(answers.items(), key=str))
    print(f"seed {seed}: {sum(answers.values())} tasks ({said}), {len(wrong)} wrong")
    sys.exit(1 if wrong else 0)


main()
