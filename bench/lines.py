#!/usr/bin/env python3
"""Prints how long the built program takes for a line, over a new store in real folders.

First over more and more creates in nested folders, which come in path order, and then in an order that scatters them. Then for
one command over many files: a folder is renamed, renamed past as many other files, and deleted. Then for one edit of many text
operations, over more and more files, and for one that renames as many files and edits each. Last, how long a start takes over
more and more files and records. LINES_DIR names the folder in which the stores are made, whose file system is what is measured:
without it /dev/shm, so that no disk is waited for. `bin/build`, run once before, builds the program."""

import os
import subprocess
import tempfile
import threading
import time

TOP = os.path.dirname(os.path.dirname(os.path.abspath(__file__)))
PROGRAM = os.path.join(TOP, "crates", "wsedit", "out", "wsedit")
COMMAND = [PROGRAM, "run", "t", "s", "file:///w"]
FOLDER = os.environ.get("LINES_DIR", "/dev/shm")
COUNTS = (1_000, 8_000)
FOLDERS = (1_000, 4_000, 16_000)
STARTS = (1_000, 4_000, 16_000)
OPERATIONS = (40, 400)


def paths(count):
    """Paths of files two folders deep, in path order."""
    return [f"d{i // 1600:02}/e{i // 40 % 40:02}/f{i % 40:02}" for i in range(count)]


def scattered(items):
    """The items in an order in which neighbours lie far apart."""
    step = 7_919
    return [items[i * step % len(items)] for i in range(len(items))]


def edit(*operations):
    changes = ",".join(f"{{{operation}}}" for operation in operations)
    return f'{{"do":"edit","edit":{{"documentChanges":[{changes}]}}}}\n'


def create(path):
    return edit(f'"kind":"create","uri":"file:///w/{path}"')


def renaming(old, new):
    return f'"kind":"rename","oldUri":"file:///w/{old}","newUri":"file:///w/{new}"'


def rename(old, new):
    return edit(renaming(old, new))


def inserting(path):
    """A text operation that inserts a character at the start of the file."""
    start = '{"line":0,"character":0}'
    insert = f'{{"range":{{"start":{start},"end":{start}}},"newText":"x"}}'
    return f'"textDocument":{{"uri":"file:///w/{path}","version":null}},"edits":[{insert}]'


def delete(path):
    return edit(f'"kind":"delete","uri":"file:///w/{path}","options":{{"recursive":true}}')


def new_store():
    """A folder that goes when it is left, with a new store `s` over an empty tree `t`."""
    folder = tempfile.TemporaryDirectory(dir=FOLDER)
    for name in "ts":
        os.mkdir(os.path.join(folder.name, name))
    subprocess.run([PROGRAM, "init", "t", "s"], cwd=folder.name, check=True)
    return folder


def run_lines(folder, lines):
    """The time of one run over the lines."""
    text = "".join(lines).encode()
    began = time.perf_counter()
    done = subprocess.run(COMMAND, cwd=folder, input=text, stdout=subprocess.PIPE)
    took = time.perf_counter() - began
    answers = done.stdout.count(b'"applied":true')
    assert done.returncode == 0 and answers == len(lines), (done.returncode, answers)
    return took


def seconds(lines):
    """The least time of three runs over the lines, each over a new store."""
    best = None
    for _ in range(3):
        with new_store() as folder:
            took = run_lines(folder, lines)
        best = took if best is None else min(best, took)
    return best


def answer_seconds(lines, last):
    """The least time, of three runs, from the last line to its answer, once the lines before it are answered."""
    best = None
    for _ in range(3):
        store = new_store()
        run = subprocess.Popen(COMMAND, cwd=store.name, stdin=subprocess.PIPE, stdout=subprocess.PIPE)
        writer = threading.Thread(target=lambda: (run.stdin.write("".join(lines).encode()), run.stdin.flush()))
        writer.start()
        for _ in lines:
            run.stdout.readline()
        writer.join()
        began = time.perf_counter()
        run.stdin.write(last.encode())
        run.stdin.flush()
        answer = run.stdout.readline()
        took = time.perf_counter() - began
        run.stdin.close()
        assert run.wait() == 0 and answer.startswith(b'{"applied":true'), answer[:200]
        store.cleanup()
        best = took if best is None else min(best, took)
    return best


def creates():
    for name, order in (("in path order", list), ("scattered", scattered)):
        first = None
        for count in COUNTS:
            each = seconds([create(path) for path in order(paths(count))]) / count
            first = first or each
            print(f"{name}: {count} creates, {each * 1e6:.1f} microseconds a line, {each / first:.2f} times")


def folders():
    """Each command over a folder `d`, of which the files lie before those of a folder `m` and those of one `z`."""
    others = lambda count: [create(f"m/{path}") for path in paths(count)]
    for name, past, last in (
        ("rename of a folder", lambda count: [], rename("d", "e")),
        ("rename past as many other files", others, rename("d", "z")),
        ("recursive delete", lambda count: [], delete("d")),
        ("recursive delete before as many other files", others, delete("d")),
    ):
        before = None
        for count in FOLDERS:
            lines = [create(f"d/{path}") for path in paths(count)] + past(count)
            took = answer_seconds(lines, last)
            growth = f", {took / before:.1f} times" if before else ""
            print(f"{name}: {count} files, {took * 1e3:.1f} milliseconds{growth}")
            before = took


def edits():
    """One edit of many operations, on files that are scattered over the tree."""
    for name, change in (
        ("text operations", lambda chosen: [inserting(path) for path in chosen]),
        ("renames, and as many text operations", lambda chosen: [renaming(path, f"{path}.new") for path in chosen]
            + [inserting(f"{path}.new") for path in chosen]),
    ):
        for operations in OPERATIONS:
            first = None
            for count in COUNTS:
                lines = [create(path) for path in paths(count)]
                took = answer_seconds(lines, edit(*change(scattered(paths(count))[1 : operations + 1])))
                first = first or took
                print(f"one edit of {operations} {name}: {count} files, {took * 1e3:.1f} milliseconds, {took / first:.2f} times")


def starts():
    """A start over a store with so many records, each of which made a file."""
    first = None
    for count in STARTS:
        with new_store() as folder:
            run_lines(folder, [create(path) for path in paths(count)])
            each = min(run_lines(folder, []) for _ in range(3)) / count
        first = first or each
        print(f"start: {count} files and records, {each * 1e6:.1f} microseconds a record, {each / first:.2f} times")


if __name__ == "__main__":
    creates()
    folders()
    edits()
    starts()
