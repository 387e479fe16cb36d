#!/usr/bin/env python3
"""Writes what `log_check` has to answer to its lines: python3 bench/log_lines.py < crates/log_check/stdin > crates/log_check/stdout

A disk and a log of its own, by docs/FORMATS.md: no line of it comes from the program that is checked. Of seeded runs it says what is right.
"""
import hashlib
import sys

PIECE = 1 << 20


class Failed(Exception):
    pass


class NotLog(Exception):
    pass


def written(file, at, data, gap=0):
    return file[:at] + bytes([gap]) * (at - len(file)) + data + file[at + len(data):]


class Disk:
    def __init__(self, start, failing=()):
        self.start, self.failing, self.made, self.calls = start, failing, 0, []

    def bytes(self):
        file = self.start
        for kind, change in self.calls:
            if kind == "changed":
                file = self.after(change, file, "New")
        return file

    @staticmethod
    def after(change, file, fill):
        what, at, data = change
        if fill == "Old":
            return file
        if what == "cut":
            return file[:at]
        if fill == "Ones":
            return written(file, at, b"\1" * len(data), 1)
        return written(file, at, data)

    def call(self, kind, change=None):
        self.made += 1
        if self.made in self.failing:
            self.calls.append(("refused", change) if kind == "changed" else ("looked", None))
            raise Failed
        self.calls.append((kind, change))

    def len(self):
        self.call("looked")
        return len(self.bytes())

    def read(self, at, n):
        self.call("looked")
        return self.bytes()[at:at + n]

    def write(self, at, data):
        self.call("changed", ("write", at, data))

    def cut(self, n):
        self.call("changed", ("cut", n, b""))

    def sync(self):
        self.call("synced")

    def after_stop(self, count, fill):
        file = image = self.start
        for kind, change in self.calls[:count]:
            if kind == "synced":
                image = file
            elif kind in ("changed", "refused"):
                image = self.after(change, image, fill)
            if kind == "changed":
                file = self.after(change, file, "New")
        return image


def entry(body):
    head = b"CUBEFRM1" + (2).to_bytes(2, "big") + bytes(32) + len(body).to_bytes(8, "big") + body
    frame = head + hashlib.sha256(head).digest()
    return len(frame).to_bytes(8, "big") + frame


def entries(data):
    """The bodies, and the place of the gate."""
    if len(data) == 1:
        return [], 0
    bodies, at = [], 0
    while data[at:at + 1] == b"\1":
        size = int.from_bytes(data[at + 1:at + 9], "big")
        frame = data[at + 9:at + 9 + size]
        body = frame[50:-32]
        if len(frame) < 82 or entry(body) != data[at + 1:at + 9 + size]:
            break
        bodies.append(body)
        at += 9 + size
    if at >= len(data) or data[at] == 1:
        raise NotLog
    return bodies, at


class Session:
    def __init__(self, disk):
        self.disk, self.gate = disk, None

    def kept(self, at, data):
        self.disk.write(at, data)
        self.disk.sync()

    def open(self):
        self.disk.sync()
        size, data = self.disk.len(), b""
        while len(data) < size:
            data += self.disk.read(len(data), PIECE)
        bodies, gate = entries(data)
        if data == b"\1":
            self.kept(0, b"\0")
        self.gate = gate
        return bodies

    def create(self):
        self.kept(0, b"\0")
        self.gate = 0

    def append(self, body):
        staged = entry(body) + b"\0"
        self.kept(self.gate + 1, staged)
        self.kept(self.gate, b"\1")
        self.gate += len(staged)


def of_hex(word):
    return b"" if word == "-" else bytes.fromhex(word)


def to_hex(data):
    return data.hex() or "-"


def listed(bodies):
    return "[" + ",".join(to_hex(it) for it in bodies) + "]"


def answered(session, words):
    call, disk = words.pop(0), session.disk
    try:
        if call == "len":
            return str(disk.len())
        if call == "read":
            return to_hex(disk.read(int(words.pop(0)), int(words.pop(0))))
        if call == "write":
            disk.write(int(words.pop(0)), of_hex(words.pop(0)))
        elif call == "cut":
            disk.cut(int(words.pop(0)))
        elif call == "sync":
            disk.sync()
        elif call == "create":
            session.create()
        elif call == "append":
            session.append(of_hex(words.pop(0)))
        else:
            return listed(session.open())
        return "ok"
    except Failed:
        return "Disk" if call in ("create", "append", "open") else "Failed"
    except NotLog:
        return "NotLog"


def found(image):
    disk = Disk(image)
    try:
        bodies = Session(disk).open()
    except NotLog:
        return "NotLog"
    stops = (disk.after_stop(count, fill) for count in range(len(disk.calls) + 1) for fill in ("Old", "New", "Ones"))
    return listed(bodies) + ("" if all(entries(it)[0] == bodies for it in stops) else " differs")


FOLDER = {}


def answer(line):
    kind, *words = line.split(" ")
    if kind == "seeded":
        return f"seeded; {words[0]} runs"
    if kind == "file":
        path = words.pop(0)
        if "/" in path:
            return "file; none"
        disk = FOLDER.setdefault(path, Disk(b""))
    else:
        failing = [] if words[0] == "-" else [int(it) for it in words[0].split(",")]
        disk = Disk(of_hex(words[1]), failing)
        words = words[2:]
    session, answers = Session(disk), [kind]
    while words:
        answers.append(answered(session, words))
    if kind in ("images", "stops"):
        show = to_hex if kind == "images" else found
        for count in range(len(disk.calls) + 1):
            answers.append(" ".join([str(count), *(show(disk.after_stop(count, fill)) for fill in ("Old", "New", "Ones"))]))
    return "; ".join(answers)


for line in sys.stdin.read().split("\n")[:-1]:
    print(line if not line or line.startswith("# ") else answer(line))
