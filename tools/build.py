#!/usr/bin/env python3
"""Proves and builds the program `cubes` by all processors: the crates that it stands on, each as soon as those below it are built.

    python3 tools/build.py [--jobs N] [--keep]

One command of the toolchain locks all crates below the one that it works on, so that two commands in one tree wait for each other.
Hence each processor has a copy of the sources (out/build/N), in which it builds one crate after another by `rt lib`, over the libraries
that the other copies have built, which it takes by links. A library that is built goes into this tree, with a sum of all the files that it was made of;
so a build that was interrupted goes on where it was. At last `rt run` links the program. With --keep the copies stay, with what their
proofs left, for bench/dear.py.

Progress goes to standard error, on a terminal in one line that is written anew. The status is 0 where the program is built, else 1.
"""
import contextlib
import hashlib
import os
import shutil
import signal
import subprocess
import sys
import time

TOP = os.path.dirname(os.path.dirname(os.path.abspath(__file__)))
ROOM = f"{TOP}/out/build"
LOG = f"{ROOM}/log"
PROGRAM = "cubes"
PARTS = ("src", "specs", "proofs")
# What one proof may take of memory, in GiB.
MEMORY = 3
# Of a crate of which bench/gate.csv has no figure: seconds of a run, and of a line of its sources.
START, LINE = 12, 0.03


def stop(why):
    sys.exit(f"cubes: {why}")


def lines_of_crates():
    """The lines of crates.txt that name a crate, each with its name."""
    with open(f"{TOP}/crates.txt", encoding="utf-8") as lines:
        kept = [line for line in lines if ":" in line.partition("#")[0]]
    return [(line.replace(":", " ").split()[0], line) for line in kept]


def crates_read():
    """The crates of the repository, by name: the names of those that each stands on directly."""
    uses_of = {name: line.partition(":")[2].split() for name, line in lines_of_crates()}
    return {name: [it for it in uses if it in uses_of] for name, uses in uses_of.items()}


def below(crates, name, seen=None):
    """The crates that one stands on, lowest first, and itself last."""
    seen = {} if seen is None else seen
    if name not in seen:
        for it in crates[name]:
            below(crates, it, seen)
        seen[name] = True
    return list(seen)


def sources(name):
    for part in PARTS:
        for folder, inner, files in os.walk(f"{TOP}/crates/{name}/{part}"):
            inner.sort()
            for file in sorted(files):
                yield f"{folder}/{file}"


def sums(crates, names, toolchain):
    """For each crate a sum of its sources, of those below it and of the toolchain."""
    found = {}
    for name in names:
        total = hashlib.sha256(toolchain.encode())
        for path in sources(name):
            total.update(os.path.relpath(path, TOP).encode())
            with open(path, "rb") as file:
                total.update(hashlib.sha256(file.read()).digest())
        for it in crates[name]:
            total.update(found[it].encode())
        found[name] = total.hexdigest()
    return found


def costs(names):
    """The seconds that each crate's proof takes, as bench/gate.csv has them, else by its size."""
    found = {}
    with contextlib.suppress(OSError), open(f"{TOP}/bench/gate.csv", encoding="utf-8") as lines:
        for line in lines:
            fields = line.strip().split(",")
            if fields[0] in names and fields[1].isdigit():
                found[fields[0]] = int(fields[1])
    for name in names:
        if name not in found:
            count = 0
            for path in sources(name):
                with open(path, "rb") as file:
                    count += file.read().count(b"\n")
            found[name] = START + LINE * count
    return found


def chains(crates, names, cost):
    """For each crate the seconds of the longest chain that begins with it and goes up to the program."""
    longest = dict(cost)
    for name in reversed(names):
        for it in crates[name]:
            longest[it] = max(longest[it], cost[it] + longest[name])
    return longest


def foreseen(crates, names, cost, order, workers):
    """The seconds that the rest will take on so many processors."""
    ends, running, left, clock = {}, [], list(names), 0.0
    waiting = set(names)
    while left or running:
        ready = [it for it in left if not any(dep in waiting for dep in crates[it])]
        for name in sorted(ready, key=lambda it: -order[it])[: workers - len(running)]:
            left.remove(name)
            running.append((clock + cost[name], name))
        running.sort()
        clock, name = running.pop(0)
        ends[name] = clock
        waiting.discard(name)
    return clock


def linked(path, to):
    """Copies a folder by links where these can be made."""

    def copy(one, other):
        try:
            os.link(one, other)
        except OSError:
            shutil.copy2(one, other)

    shutil.rmtree(to, ignore_errors=True)
    shutil.copytree(path, to, copy_function=copy)


class Tree:
    """A copy of the sources, in which one crate after another is built."""

    def __init__(self, number, names, sum_of, keeps):
        self.folder, self.sum_of, self.keeps, self.has = f"{ROOM}/{number}", sum_of, keeps, set()
        os.makedirs(f"{self.folder}/crates", exist_ok=True)
        # A folder of this name ends the toolchain's search for the top of the repository.
        os.makedirs(f"{self.folder}/.git", exist_ok=True)
        shutil.copy2(f"{TOP}/HANDLES", f"{self.folder}/HANDLES")
        with open(f"{self.folder}/crates.txt", "w", encoding="utf-8") as file:
            file.writelines(line for name, line in lines_of_crates() if name in names)
        for name in names:
            for part in PARTS:
                to = f"{self.folder}/crates/{name}/{part}"
                shutil.rmtree(to, ignore_errors=True)
                if os.path.isdir(f"{TOP}/crates/{name}/{part}"):
                    shutil.copytree(f"{TOP}/crates/{name}/{part}", to)

    def take(self, name):
        """Takes a library that stands in the repository's own tree."""
        if name not in self.has:
            linked(f"{TOP}/crates/{name}/out/rlib", f"{self.folder}/crates/{name}/out/rlib")
            self.has.add(name)

    def begin(self, crates, name, processors):
        """Begins to build a crate by so many processors, over the libraries of the repository's own tree."""
        for it in below(crates, name)[:-1]:
            self.take(it)
        self.name, self.log = name, open(f"{ROOM}/{name}.log", "w", encoding="utf-8")
        self.since = time.time()
        self.run = subprocess.Popen(
            ["rt", "lib", "--jobs", str(processors)],
            cwd=f"{self.folder}/crates/{name}",
            stdin=subprocess.DEVNULL,
            stdout=self.log,
            stderr=subprocess.STDOUT,
            start_new_session=True,
        )

    def end(self):
        """Hands the library over to the repository's own tree; false where the crate wasn't proved."""
        self.log.close()
        if self.run.returncode:
            return False
        to = f"{TOP}/crates/{self.name}/out"
        linked(f"{self.folder}/crates/{self.name}/out/rlib", f"{to}/rlib")
        with open(f"{to}/built", "w", encoding="utf-8") as file:
            file.write(self.sum_of[self.name])
        if not self.keeps:
            # What the check kept is of use to no later one here.
            shutil.rmtree(f"{self.folder}/crates/{self.name}/out/incremental", ignore_errors=True)
        self.has.add(self.name)
        return True


def is_built(name, sum_of):
    folder = f"{TOP}/crates/{name}/out"
    try:
        with open(f"{folder}/built", encoding="utf-8") as file:
            return file.read() == sum_of[name] and os.path.isdir(f"{folder}/rlib")
    except OSError:
        return False


class Progress:
    """What is told on standard error, and how far the build is."""

    def __init__(self, count, done):
        self.count, self.done, self.since = count, done, time.time()
        self.on_terminal, self.told, self.wide = sys.stderr.isatty(), 0, 0

    def say(self, text):
        if self.on_terminal:
            sys.stderr.write("\r" + text.ljust(self.wide))
            self.wide = len(text)
        else:
            sys.stderr.write(text + "\n")
        sys.stderr.flush()

    def tell(self, rest, at_work, now=False):
        if not now and time.time() - self.told < (1 if self.on_terminal else 60):
            return
        self.told = time.time()
        minutes = (self.told - self.since) / 60
        names = ", ".join(it.name for it in at_work)
        text = f"cubes: {self.done} of {self.count} crates, {minutes:.0f} min, about {max(rest, 0) / 60:.0f} min left"
        self.say(f"{text}  ({names})"[:118] if names else text)


def workers_wanted(words):
    if words[:1] == ["--jobs"] and len(words) == 2 and words[1].isdigit() and int(words[1]):
        return int(words[1])
    if words:
        stop("tools/build.py takes --jobs N and --keep alone")
    return max(1, min(len(os.sched_getaffinity(0)), int(memory_free() / MEMORY)))


def memory_free():
    """The GiB of memory that are free or can be freed at once."""
    with open("/proc/meminfo", encoding="utf-8") as lines:
        for line in lines:
            if line.startswith("MemAvailable:"):
                return int(line.split()[1]) / 2**20
    return MEMORY


def tail(path, count=20):
    with contextlib.suppress(OSError), open(path, encoding="utf-8", errors="replace") as file:
        sys.stderr.write("\n" + "".join(file.readlines()[-count:]))


def built_all(crates, names, left, trees, plan, progress):
    """Builds the libraries that are left; returns the crate that wasn't proved, if there was one."""
    cost, order, rest_of = plan
    waiting, idle, at_work, speed = set(left), list(trees), [], [0.0, 0.0]
    while left or at_work:
        ready = sorted((it for it in left if not any(dep in waiting for dep in crates[it])), key=lambda it: -order[it])
        # Processors for which there is no crate help with the first of those that begin now.
        spare = max(0, len(idle) - len(ready))
        for name in ready[: len(idle)]:
            tree = idle.pop()
            left.remove(name)
            tree.begin(crates, name, 1 + spare)
            at_work.append(tree)
            spare = 0
        time.sleep(0.2)
        for tree in [it for it in at_work if it.run.poll() is not None]:
            at_work.remove(tree)
            if not tree.end():
                return tree.name
            idle.append(tree)
            waiting.discard(tree.name)
            speed[0] += time.time() - tree.since
            speed[1] += cost[tree.name]
            progress.done += 1
            with open(LOG, "a", encoding="utf-8") as log:
                log.write(f"{tree.name} built in {time.time() - tree.since:.0f} s\n")
        factor = (speed[0] + 60) / (speed[1] + 60)
        spent = sum(min(time.time() - it.since, cost[it.name] * factor) for it in at_work) / len(trees)
        progress.tell(rest_of([*left, *(it.name for it in at_work)]) * factor - spent, at_work)
    return None


def linked_program(progress):
    """Proves and links the program over the libraries of this tree."""
    progress.say("cubes: the libraries are built; proving and linking the program")
    program = f"{TOP}/crates/{PROGRAM}/out/{PROGRAM}"
    with contextlib.suppress(OSError):
        os.remove(program)
    os.makedirs(f"{TOP}/crates/{PROGRAM}/out", exist_ok=True)
    with open(f"{ROOM}/{PROGRAM}.log", "w", encoding="utf-8") as log:
        # `rt run` builds the program and then runs it, here with no words: its fault line and its status are of no interest.
        subprocess.run(["rt", "run"], cwd=f"{TOP}/crates/{PROGRAM}", stdin=subprocess.DEVNULL, stdout=log, stderr=log, check=False)
    return os.path.exists(program)


def main(words):
    keeps = "--keep" in words
    words = [it for it in words if it != "--keep"]
    if not shutil.which("rt"):
        stop("the Rattle toolchain's command 'rt' is not on the PATH.")
    crates = crates_read()
    names = below(crates, PROGRAM)
    toolchain = subprocess.run(["rt", "version"], stdout=subprocess.PIPE, text=True, check=False).stdout
    sum_of = sums(crates, names, toolchain)
    cost = costs(names)
    order = chains(crates, names, cost)
    libraries = names[:-1]
    left = [it for it in libraries if not is_built(it, sum_of)]
    workers = max(1, min(workers_wanted(words), len(left)))
    rest_of = lambda some: foreseen(crates, [*some, PROGRAM], cost, order, workers)
    os.makedirs(ROOM, exist_ok=True)
    open(LOG, "w", encoding="utf-8").close()
    here = os.path.relpath(LOG)
    sys.stderr.write(
        f"cubes: the program is proved and built first, once: {len(left) + 1} of {len(names)} crates on {workers} processors, about"
        f" {rest_of(left) / 60:.0f} minutes. It may be interrupted and goes on where it was. To follow it: tail -f {here}\n"
    )
    progress = Progress(len(names), len(libraries) - len(left))
    trees = [Tree(it + 1, names, sum_of, keeps) for it in range(workers)] if left else []
    try:
        failed = built_all(crates, names, left, trees, (cost, order, rest_of), progress)
    finally:
        for tree in trees:
            if getattr(tree, "run", None) and tree.run.poll() is None:
                os.killpg(tree.run.pid, signal.SIGTERM)
    if failed:
        tail(f"{ROOM}/{failed}.log")
        stop(f"the crate {failed} was not proved, so the program was not built. Log: {os.path.relpath(ROOM)}/{failed}.log")
    if not linked_program(progress):
        tail(f"{ROOM}/{PROGRAM}.log")
        stop(f"the program was not built. Log: {os.path.relpath(ROOM)}/{PROGRAM}.log")
    for tree in trees if not keeps else []:
        shutil.rmtree(tree.folder, ignore_errors=True)
    progress.done += 1
    progress.tell(0, [], now=True)
    if progress.on_terminal:
        sys.stderr.write("\n")


if __name__ == "__main__":
    try:
        main(sys.argv[1:])
    except KeyboardInterrupt:
        stop("interrupted; the next call goes on from here")
