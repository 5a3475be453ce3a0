#!/usr/bin/env python3
"""Applies a language server's edit to a folder by wsedit, prints what changed, undoes it, and prints what changed then.

    examples/client.py TREE STORE ROOT EDIT

TREE is a folder over which `bin/wsedit init TREE STORE` made a store, ROOT the URI that the server knows it by, and EDIT a file with
the WorkspaceEdit that the server sent. An edit that asks for confirmations is confirmed whole."""

import json
import os
import subprocess
import sys
from urllib.parse import quote

WSEDIT = os.path.join(os.path.dirname(os.path.dirname(os.path.abspath(__file__))), "bin", "wsedit")


class Run:
    """A run of wsedit: one line in, one line out."""

    def __init__(self, tree, store, root):
        self.root = root
        self.process = subprocess.Popen([WSEDIT, "run", tree, store, root], stdin=subprocess.PIPE, stdout=subprocess.PIPE)

    def ask(self, do, **members):
        self.process.stdin.write(json.dumps({"do": do, **members}).encode() + b"\n")
        self.process.stdin.flush()
        answer = self.process.stdout.readline()
        if not answer:
            sys.exit(f"the run ended with status {self.process.wait()}")
        return json.loads(answer)

    def edit(self, edit):
        for change in edit.get("documentChanges", []):
            if change.get("textDocument", {}).get("version") == 0:
                change["textDocument"]["version"] = None  # what some servers send for a file that isn't open
        return self.ask("edit", edit=edit, confirmed=list(edit.get("changeAnnotations", {})), failure="transactional")

    def uri(self, path):
        return f"{self.root}/{quote(path)}"

    def print_changes(self, answer):
        for path, version in answer.get("changed", {}).items():
            now = self.ask("look", uri=self.uri(path))
            print(f"{path} is gone, at version {version}" if now["bytes"] is None else f"{path} has version {version}:")
            for line in (now["text"] or "").splitlines():
                print(f"    {line}".rstrip())

    def end(self):
        self.process.stdin.close()
        return self.process.wait()


def main(tree, store, root, edit):
    run = Run(tree, store, root)
    with open(edit) as file:
        answer = run.edit(json.load(file))
    print("applied" if answer.get("applied") else f"not applied: {answer.get('failureReason', answer)}")
    run.print_changes(answer)
    if answer.get("applied") and answer["changed"]:
        undone = run.ask("undo", uri=run.uri(next(iter(answer["changed"]))))
        print(f"undo: {undone['result']}")
        run.print_changes(undone)
    return run.end()


if __name__ == "__main__":
    sys.exit(main(*sys.argv[1:]) if len(sys.argv) == 5 else __doc__)
