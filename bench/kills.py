#!/usr/bin/env python3
"""Kills the built program while it answers lines over real folders, and starts it again.

Each time it takes a new store, sends edits of two files each, kills the run at a random moment, and starts another one without
lines. The files must be those of a front of the edits, whole, that has each edit which was answered and at most one more.
`bin/build`, run once before, builds the program. KILLS_DIR names the folder in which the stores are made."""

import os
import random
import subprocess
import sys
import tempfile
import time

TOP = os.path.dirname(os.path.dirname(os.path.abspath(__file__)))
PROGRAM = os.path.join(TOP, "crates", "wsedit", "out", "wsedit")
RUN = [PROGRAM, "run", "t", "s", "file:///w"]
TIMES = 100
EDITS = 200
LONGEST_WAIT = 0.08


def create(name):
    return f'{{"kind":"create","uri":"file:///w/{name}"}}'


def line(i):
    changes = ",".join(create(f"{letter}{i:03}") for letter in "ab")
    return f'{{"do":"edit","edit":{{"documentChanges":[{changes}]}}}}\n'


def killed(folder):
    """Sends the edits, kills the run at a random moment, and answers how many answers came."""
    for name in "ts":
        os.mkdir(os.path.join(folder, name))
    subprocess.run([PROGRAM, "init", "t", "s"], cwd=folder, check=True)
    answers = os.path.join(folder, "answers")
    with open(answers, "w") as out:
        run = subprocess.Popen(RUN, cwd=folder, stdin=subprocess.PIPE, stdout=out)
        run.stdin.write("".join(map(line, range(EDITS))).encode())
        run.stdin.flush()
        time.sleep(random.random() * LONGEST_WAIT)
        run.kill()
        run.wait()
    with open(answers) as lines:
        return lines.read().count("\n")


def done(folder):
    """Starts a run without lines, and answers how many edits are there, each whole."""
    subprocess.run(RUN, cwd=folder, stdin=subprocess.DEVNULL, check=True)
    files = sorted(os.listdir(os.path.join(folder, "t")))
    count = len(files) // 2
    assert files == sorted(f"{letter}{i:03}" for letter in "ab" for i in range(count)), files
    return count


def main():
    random.seed(int(sys.argv[1]) if len(sys.argv) > 1 else 1)
    more = 0
    for _ in range(TIMES):
        with tempfile.TemporaryDirectory(dir=os.environ.get("KILLS_DIR")) as folder:
            answered = killed(folder)
            count = done(folder)
            assert answered <= count <= answered + 1, (answered, count)
            more += count > answered
    print(f"{TIMES} runs were killed, and each start went on from a front of the edits that has all that were answered; {more} had one more")


if __name__ == "__main__":
    main()
