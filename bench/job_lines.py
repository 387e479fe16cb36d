"""The two long lines of `crates/job_check`, and what must be printed for them, by lists and counts of this script's own.

    python3 bench/job_lines.py

It writes them into the program's `stdin` and `stdout`, below the headings that begin as HEADINGS say: a thousand numbers on one queue,
and a thousand jobs on one board. All other lines are written by hand, and stay as they are.
"""

import os

FOLDER = os.path.join(os.path.dirname(os.path.abspath(__file__)), "..", "crates", "job_check")
HEADINGS = ("# numbers: ", "# queue: ")

JOBS = 1000
# the most live jobs and ready segments together
MOST = 128
STEPS = 3


def numbers_script():
    """A thousand numbers are pushed in a seeded order, every third of another order is taken out, and the others come out."""

    def order(seed):
        # the powers of a primitive root of 1,009, those below 1,000, and then 0
        number, found = seed, []
        for _ in range(1008):
            number = number * 11 % 1009
            if number < 1000:
                found.append(number)
        return [*found, 0]

    words, answers, plain = ["contains", "0"], ["false"], []
    for number in order(5):
        words += ["push", str(number)]
        answers.append("false" if number in plain else "true")
        plain += [] if number in plain else [number]
    words.append("len")
    answers.append(str(len(plain)))
    for number in order(700)[::3]:
        words += ["unlink", str(number)]
        answers.append("true" if number in plain else "false")
        plain = [it for it in plain if it != number]
    words.append("len")
    answers.append(str(len(plain)))
    for number in plain:
        words += ["front", "pop"]
        answers += [f"Some({number})"] * 2
    return [*words, "pop", "contains", "1000"], [*answers, "None", "false"]


def day(number):
    """28 days of each month, from the year 2000 on."""
    return f"20{number // 336:02}-{number // 28 % 12 + 1:02}-{number % 28 + 1:02}"


class Board:
    """The jobs that wait for a claim, in their order, those that are STOPPED or in ERROR, and what was asked and has to be answered."""

    def __init__(self):
        self.jobs, self.ready, self.queue, self.resting = 0, 0, [], []
        self.attempts, self.done = {}, {}
        self.words, self.answers = ["load", "first"], ["loaded"]

    def call(self, words, answer):
        self.words += words.split()
        self.answers.append(answer)

    def submit(self):
        """A job over a day of its own. Where the board is full, that is why it is refused, though its days are those of others."""
        if len(self.queue) + len(self.resting) + self.ready >= MOST:
            self.call(f"build {day(0)} {day(self.jobs)}", "TooManySegments")
            return
        self.call(f"build {day(self.jobs)} {day(self.jobs + 1)}", f"job {self.jobs + 1}")
        self.jobs += 1
        self.queue.append(self.jobs)

    def change(self, command, state, jobs, others, seed):
        """A command on one of some jobs, by a seed, which then is one of others."""
        if jobs:
            job = jobs.pop((seed >> 40) % len(jobs))
            self.call(f"{command} {job}", state)
            others.append(job)

    def step(self, killed):
        """The first job of the queue is claimed, and its step ends with its product, or is killed."""
        if not self.queue:
            self.call("claim", "none")
            return
        job = self.queue.pop(0)
        attempt = self.attempts[job] = self.attempts.get(job, 0) + 1
        done = self.done.get(job, 0)
        self.call("claim", f"step {done + 1}")
        if killed:
            self.call(f"end {job} {attempt} Killed", "Failed")
            self.resting.append(job)
            return
        self.done[job] = done + 1
        if done + 1 < STEPS:
            self.call(f"end {job} {attempt} product", "Advanced")
            self.queue.append(job)
        else:
            self.call(f"end {job} {attempt} product", "Finished")
            self.ready += 1

    def turn(self, seed):
        choice = (seed >> 33) % 16
        if choice < 6:
            self.submit()
        elif choice < 8:
            self.change("pause", "STOPPED", self.queue, self.resting, seed)
        elif choice < 11:
            self.change("resume", "PENDING", self.resting, self.queue, seed)
        elif choice < 14:
            self.change("discard", "DISCARDED", self.queue if choice < 13 else self.resting, [], seed)
        else:
            self.step(choice == 14)


def queue_script():
    """Turns by a seed until a thousand jobs were submitted. Those that still wait are killed then, one after the other."""
    board, seed = Board(), 2012
    while board.jobs < JOBS:
        seed = (seed * 6364136223846793005 + 1442695040888963407) % 2**64
        board.turn(seed)
    for _ in range(len(board.queue) + 1):
        board.step(True)
    board.call("settled", "yes")
    return board.words, board.answers


def put(name, lines):
    path = os.path.join(FOLDER, name)
    with open(path, encoding="utf-8") as file:
        text = file.read().split("\n")
    for heading, line in zip(HEADINGS, lines):
        (place,) = [i for i, it in enumerate(text) if it.startswith(heading)]
        text[place + 1] = line
    with open(path, "w", encoding="utf-8") as file:
        file.write("\n".join(text))


def main():
    scripts = [("list", *numbers_script()), ("board", *queue_script())]
    put("stdin", [" ".join([kind, *words]) for kind, words, _ in scripts])
    put("stdout", ["; ".join([kind, *answers]) for kind, _, answers in scripts])


main()
