#!/usr/bin/env python3
"""Prints how long an edit takes that moves a folder of files and edits each, beside other ways to make the same change.

Side by side, each time over new folders of the same file system, in rounds that each begin with another of them: `wsedit`, from the
line to its answer in a run that was started before; `bench/flushes.c`, which writes the same files and flushes each, without and with
the flushes of a journal and of folders; `git apply` of the same change, which flushes nothing; and an SQLite transaction that changes
as many rows, since a row is what SQLite has in place of a file. Printed are the medians of the rounds, the least and the greatest
time, how loaded the machine was, and, where strace is there, the flushes that the system saw in one more round.

    bench/flushes.py [COUNT..]      how many files; 40 and 400 where none is given

`bin/build`, run once before, builds the program; PROGRAM names another one. The C program is compiled by cc. FLUSHES_DIR names the
folder in which the files are made, whose file system is what is measured: without it the system's folder for files that don't stay."""

import json
import os
import re
import shutil
import sqlite3
import statistics
import subprocess
import sys
import tempfile
import time

TOP = os.path.dirname(os.path.dirname(os.path.abspath(__file__)))
PROGRAM = os.environ.get("PROGRAM", os.path.join(TOP, "crates", "wsedit", "out", "wsedit"))
SOURCE = os.path.join(TOP, "bench", "flushes.c")
TEXT = "".join(f"line {i} of a file that is moved and edited\n" for i in range(50))
ROUNDS = 15
TOOLS = tempfile.TemporaryDirectory()
WRITER = os.path.join(TOOLS.name, "flushes")


def in_tree(folder, files):
    """Makes the files of `t/old`, and a folder `s` for what stands beside them."""
    os.makedirs(os.path.join(folder, "t", "old"))
    os.mkdir(os.path.join(folder, "s"))
    for i in range(files):
        with open(os.path.join(folder, "t", "old", f"f{i}"), "w") as file:
            file.write(TEXT)


def edit_line(files):
    start = {"line": 0, "character": 0}
    insert = {"range": {"start": start, "end": start}, "newText": "new "}
    moved = {"kind": "rename", "oldUri": "file:///w/old", "newUri": "file:///w/new"}
    texts = [{"textDocument": {"uri": f"file:///w/new/f{i}", "version": None}, "edits": [insert]} for i in range(files)]
    return json.dumps({"do": "edit", "edit": {"documentChanges": [moved, *texts]}}).encode() + b"\n"


def timed(work):
    begun = time.perf_counter()
    work()
    return 1000 * (time.perf_counter() - begun)


def by_wsedit(folder, files, tracer):
    """From the line to its answer."""
    in_tree(folder, files)
    subprocess.run([PROGRAM, "init", "t", "s"], cwd=folder, check=True)
    run = subprocess.Popen(
        [*tracer, PROGRAM, "run", "t", "s", "file:///w"], cwd=folder, stdin=subprocess.PIPE, stdout=subprocess.PIPE)

    def ask(line):
        run.stdin.write(line)
        run.stdin.flush()
        return run.stdout.readline()

    ask(b'{"do":"leave"}\n')
    line, answers = edit_line(files), []
    took = timed(lambda: answers.append(ask(line)))
    run.stdin.close()
    assert run.wait() == 0 and answers[0].startswith(b'{"applied":true'), answers[0][:200]
    return took


def by_writer(kind):
    def work(folder, files, tracer):
        in_tree(folder, files)
        return timed(lambda: subprocess.run([*tracer, WRITER, kind, str(files)], cwd=folder, check=True))

    return work


def by_git(folder, files, tracer):
    in_tree(folder, files)
    first = TEXT.splitlines(keepends=True)[0]
    patch = "".join(
        f"diff --git a/t/old/f{i} b/t/new/f{i}\nsimilarity index 99%\nrename from t/old/f{i}\nrename to t/new/f{i}\n"
        f"--- a/t/old/f{i}\n+++ b/t/new/f{i}\n@@ -1,2 +1,2 @@\n-{first}+new {first} {TEXT.splitlines(keepends=True)[1]}"
        for i in range(files)
    )
    with open(os.path.join(folder, "patch"), "w") as file:
        file.write(patch)
    return timed(lambda: subprocess.run([*tracer, "git", "apply", "patch"], cwd=folder, check=True))


def by_sqlite(folder, files, tracer):
    """In this process, so without a tracer; each commit is flushed, as SQLite does where nothing else is asked for."""
    database = sqlite3.connect(os.path.join(folder, "files.db"), isolation_level=None)
    database.execute("pragma synchronous = full")
    database.execute("create table file (path text primary key, content text)")
    database.execute("begin")
    database.executemany("insert into file values (?, ?)", ((f"old/f{i}", TEXT) for i in range(files)))
    database.execute("commit")

    def change():
        database.execute("begin")
        for i in range(files):
            database.execute(
                "update file set path = ?, content = ? where path = ?", (f"new/f{i}", "new " + TEXT, f"old/f{i}"))
        database.execute("commit")

    took = timed(change)
    database.close()
    return took


WAYS = (
    ("wsedit", by_wsedit),
    ("C, each file flushed", by_writer("files")),
    ("C, with the flushes of a journal", by_writer("journal")),
    ("git apply", by_git),
    ("an SQLite transaction", by_sqlite),
)


def once(work, files, tracer=()):
    with tempfile.TemporaryDirectory(dir=os.environ.get("FLUSHES_DIR")) as folder:
        return work(folder, files, tracer)


def flushes(work, files):
    """How many flushes the system saw: none where there is no strace, or where the work isn't done by a program."""
    if work is by_sqlite or not shutil.which("strace"):
        return ""
    trace = os.path.join(TOOLS.name, "trace")
    once(work, files, ["strace", "-f", "-o", trace, "-e", "trace=fsync,fdatasync"])
    with open(trace) as lines:
        return sum(1 for line in lines if re.search(r"\b(fsync|fdatasync)\(", line))


def measure(files):
    took = {name: [] for name, _ in WAYS}
    for i in range(ROUNDS):
        first = i % len(WAYS)
        for name, work in WAYS[first:] + WAYS[:first]:
            took[name].append(once(work, files))
    medians = {name: statistics.median(times) for name, times in took.items()}
    print(f"{files} files moved and edited; medians of {ROUNDS} rounds, load {os.getloadavg()[0]:.1f}")
    for name, work in WAYS:
        times = took[name]
        print(f"  {name:34} {medians[name]:7.0f} ms  ({min(times):.0f} to {max(times):.0f})  flushes: {flushes(work, files)}")
    bare = medians["C, with the flushes of a journal"]
    print(f"  wsedit takes {medians['wsedit'] / bare:.2f} times what the C program with the same flushes takes")


def main():
    if not os.path.exists(PROGRAM):
        raise SystemExit("there is no program: bin/build builds it")
    subprocess.run(["cc", "-O2", "-o", WRITER, SOURCE], check=True)
    for files in [int(word) for word in sys.argv[1:]] or [40, 400]:
        measure(files)


if __name__ == "__main__":
    main()
