#!/usr/bin/env python3
"""Rows over real folders: what links, folders in the way, permissions, a full disk, long paths and odd names do to the built program.

Each row takes a new folder, runs the program in it and looks at the statuses, the answers and the files. As root it runs the
program as nobody, since nothing is forbidden to root, and makes a small file system for the full disk; else these rows are left out.
`bin/wsedit`, run once before, builds the program; its place may be given as the only word. Says how many rows differ."""

import json
import os
import shutil
import subprocess
import sys
import tempfile

TOP = os.path.dirname(os.path.dirname(os.path.abspath(__file__)))
PROGRAM = os.path.join(TOP, "crates", "wsedit", "out", "wsedit")
NOBODY = 65534
IS_ROOT = os.geteuid() == 0


def give_up_rights():
    if IS_ROOT:
        os.setgid(NOBODY)
        os.setuid(NOBODY)


class Place:
    """A new folder with the program in it, run as somebody who isn't root."""

    def __init__(self, folder, tree="tree", store="store"):
        self.folder, self.tree, self.store = folder, tree, store

    def at(self, *names):
        return os.path.join(self.folder, *names)

    def put(self, name, text, mode=0o644):
        os.makedirs(os.path.dirname(self.at(self.tree, name)), exist_ok=True)
        with open(self.at(self.tree, name), "w", encoding="utf-8") as file:
            file.write(text)
        os.chmod(self.at(self.tree, name), mode)
        self.hand_over()

    def hand_over(self):
        """The program's user owns all that is in the folder; a link is handed over, not what it leads to."""
        if IS_ROOT:
            os.chown(self.folder, NOBODY, NOBODY)
            for top, folders, files in os.walk(self.folder):
                for name in folders + files:
                    os.chown(os.path.join(top, name), NOBODY, NOBODY, follow_symlinks=False)

    def text(self, *names):
        with open(self.at(self.tree, *names), encoding="utf-8") as file:
            return file.read()

    def call(self, *words, lines=()):
        """The status, what is at standard output, and what is at standard error."""
        ended = subprocess.run(
            [PROGRAM, *words],
            cwd=self.folder,
            input="".join(line + "\n" for line in lines).encode(),
            capture_output=True,
            preexec_fn=give_up_rights,
            check=False,
        )
        return ended.returncode, ended.stdout.decode(), ended.stderr.decode()

    def init(self):
        return self.call("init", self.tree, self.store)

    def run(self, *lines, tree=None, words=()):
        return self.call("run", tree or self.tree, self.store, "file:///w", *words, lines=lines)


def edit(*operations):
    return json.dumps({"do": "edit", "edit": {"documentChanges": list(operations)}})


def create(name):
    return {"kind": "create", "uri": "file:///w/" + name}


def delete(name):
    return {"kind": "delete", "uri": "file:///w/" + name}


def rename(old, new):
    return {"kind": "rename", "oldUri": "file:///w/" + old, "newUri": "file:///w/" + new}


def replace(name, line, start, end, text):
    place = {"start": {"line": line, "character": start}, "end": {"line": line, "character": end}}
    return {"textDocument": {"uri": "file:///w/" + name, "version": None}, "edits": [{"range": place, "newText": text}]}


def undo(name):
    return json.dumps({"do": "undo", "uri": "file:///w/" + name})


def is_applied(ended):
    status, out, _ = ended
    answers = [json.loads(line) for line in out.splitlines()]
    return status == 0 and all(it.get("applied") or it.get("result") == "done" for it in answers)


DONE = (0, "", "")
FAILED = (5, "", "wsedit: disk failed\n")


def a_rename_is_done_and_undone_in_another_run(place):
    place.put("src/point.rs", "struct Point;\n")
    place.put("src/main.rs", "use Point;\n")
    assert place.init() == DONE
    line = edit(replace("src/point.rs", 0, 7, 12, "Spot"), replace("src/main.rs", 0, 4, 9, "Spot"), rename("src/point.rs", "src/spot.rs"))
    assert is_applied(place.run(line))
    assert sorted(os.listdir(place.at("tree/src"))) == ["main.rs", "spot.rs"]
    assert (place.text("src/spot.rs"), place.text("src/main.rs")) == ("struct Spot;\n", "use Spot;\n")
    assert is_applied(place.run(undo("src/main.rs")))
    assert sorted(os.listdir(place.at("tree/src"))) == ["main.rs", "point.rs"]
    assert (place.text("src/point.rs"), place.text("src/main.rs")) == ("struct Point;\n", "use Point;\n")


def a_history_is_shown_while_nobody_runs(place):
    place.put("a", "x\n")
    assert place.init() == DONE
    assert is_applied(place.run(edit(replace("a", 0, 0, 1, "y"))))
    status, out, errs = place.call("show", place.tree, place.store)
    assert status == 0 and '"a"' in out and errs == "", (status, out, errs)
    assert place.run() == DONE


def a_link_is_no_file_of_the_tree(place):
    place.put("a", "x\n")
    os.symlink("/etc/hostname", place.at("tree/link"))
    place.hand_over()
    assert place.init() == DONE
    status, out, _ = place.run(edit(delete("link")))
    assert status == 0 and json.loads(out)["applied"] is False
    assert os.path.islink(place.at("tree/link"))


def a_store_never_goes_through_a_link(place):
    os.mkdir(place.at("outside"))
    place.put("a", "x\n")
    os.symlink("../outside", place.at("tree/d"))
    place.hand_over()
    assert place.init() == DONE
    assert place.run(edit(create("d/new"))) == FAILED
    assert os.listdir(place.at("outside")) == []
    assert place.run() == FAILED
    os.remove(place.at("tree/d"))
    assert place.run() == DONE
    assert place.text("d/new") == ""


def an_empty_folder_gives_way_to_a_file(place):
    os.makedirs(place.at("tree/d/e"))
    place.hand_over()
    assert place.init() == DONE
    assert is_applied(place.run(edit(create("d"))))
    assert os.path.isfile(place.at("tree/d"))


def a_folder_that_holds_a_link_does_not(place):
    os.makedirs(place.at("tree/d"))
    os.symlink("/etc/hostname", place.at("tree/d/link"))
    place.hand_over()
    assert place.init() == DONE
    assert place.run(edit(create("d"))) == FAILED
    assert os.path.islink(place.at("tree/d/link"))
    shutil.rmtree(place.at("tree/d"))
    assert place.run() == DONE
    assert os.path.isfile(place.at("tree/d"))


def a_file_that_may_not_be_read_is_a_fault(place):
    """Making a store asks for lengths alone; a run reads each file."""
    place.put("a", "x\n", mode=0o000)
    assert place.init() == DONE
    assert place.run() == FAILED
    os.chmod(place.at("tree/a"), 0o644)
    assert place.run() == DONE


def a_file_that_may_not_be_written_is_written_by_the_next_start(place):
    place.put("a", "x\n", mode=0o444)
    assert place.init() == DONE
    assert place.run(edit(replace("a", 0, 0, 1, "y"))) == FAILED
    assert place.text("a") == "x\n"
    assert place.run() == FAILED
    os.chmod(place.at("tree/a"), 0o644)
    assert place.run() == DONE
    assert place.text("a") == "y\n"


def permissions_stay(place):
    place.put("a", "x\n", mode=0o750)
    assert place.init() == DONE
    assert is_applied(place.run(edit(replace("a", 0, 0, 1, "y"))))
    assert os.stat(place.at("tree/a")).st_mode & 0o777 == 0o750


def a_full_disk_at_the_journal_leaves_the_state_before(place):
    place.put("a", "x\n")
    assert place.init() == DONE
    assert place.run(edit(replace("a", 0, 0, 1, "z" * 1_200_000))) == FAILED
    assert place.text("a") == "x\n"
    assert is_applied(place.run(edit(replace("a", 0, 0, 1, "y"))))
    assert place.text("a") == "y\n"


def a_full_disk_behind_the_journal_waits_for_room(place):
    place.put("a", "x\n")
    assert place.init() == DONE
    text = "z" * 700_000
    assert place.run(edit(replace("a", 0, 0, 1, text))) == FAILED
    assert place.run() == FAILED
    subprocess.run(["mount", "-o", "remount,size=4m", place.folder], check=True)
    assert place.run() == DONE
    assert place.text("a") == text + "\n"


def a_tree_that_is_not_there_is_empty(place):
    assert place.init() == DONE
    assert is_applied(place.run(edit(create("d/a"))))
    assert os.listdir(place.at("tree")) == ["d"]


def a_store_that_is_not_there_is_none(place):
    place.put("a", "x\n")
    assert place.run() == (7, "", "wsedit: not a store: byte 0\n"), place.run()
    assert not os.path.exists(place.at("store"))


def a_name_that_is_no_text_stays_where_it_is(place):
    """It is no path: no URI names it, and it doesn't go with its folder."""
    place.put("d/a", "x\n")
    odd = place.at("tree").encode() + b"/d/\xff"
    with open(odd, "w", encoding="utf-8") as file:
        file.write("odd\n")
    place.hand_over()
    assert place.init() == DONE
    status, out, _ = place.run(edit(delete("d/%FF")))
    assert status == 0 and json.loads(out)["why"] == "segment 1 is not UTF-8", out
    assert is_applied(place.run(edit(rename("d", "e"))))
    assert place.text("e", "a") == "x\n" and os.path.exists(odd)
    assert is_applied(place.run(undo("e/a")))
    assert place.text("d", "a") == "x\n" and os.path.exists(odd)


def segments(length):
    """A path of so many bytes, of segments of at most 200."""
    whole, rest = divmod(length + 1, 201)
    names = ["p" * 200] * whole + (["q" * (rest - 1)] if rest > 1 else [])
    return "/".join(names)


def a_path_of_4090_bytes_is_reached(place):
    place.put("a", "x\n")
    os.symlink("tree", place.at("t"))
    assert place.init() == DONE
    assert is_applied(place.run(edit(create(segments(4090))), tree="t"))
    assert is_applied(place.run(undo(segments(4090)), tree="t"))


def a_place_that_is_too_long_waits_for_a_shorter_word(place):
    place.put("a", "x\n")
    os.symlink("tree", place.at("t"))
    assert place.init() == DONE
    assert place.run(edit(create(segments(4092)))) == FAILED
    assert os.listdir(place.at("tree")) == ["a"]
    assert place.run() == FAILED
    assert place.run(tree="t") == DONE
    assert sorted(os.listdir(place.at("tree"))) == ["a", "p" * 200]


def two_runs_do_not_share_a_store(place):
    place.put("a", "x\n")
    assert place.init() == DONE
    with subprocess.Popen(
        [PROGRAM, "run", "tree", "store", "file:///w"], cwd=place.folder, stdin=subprocess.PIPE, stdout=subprocess.PIPE, preexec_fn=give_up_rights
    ) as first:
        first.stdin.write((edit(replace("a", 0, 0, 1, "y")) + "\n").encode())
        first.stdin.flush()
        assert json.loads(first.stdout.readline())["applied"]
        assert place.run(edit(replace("a", 0, 0, 1, "z"))) == FAILED
        if shows():
            assert place.call("show", "tree", "store") == FAILED
        first.stdin.write((edit(replace("a", 0, 0, 1, "w")) + "\n").encode())
        first.stdin.close()
        assert json.loads(first.stdout.readline())["applied"]
        assert first.wait() == 0
    assert place.text("a") == "w\n"


def shows():
    return b" show " in subprocess.run([PROGRAM], capture_output=True, check=False).stderr


ROWS = [
    a_rename_is_done_and_undone_in_another_run,
    a_history_is_shown_while_nobody_runs,
    a_link_is_no_file_of_the_tree,
    a_store_never_goes_through_a_link,
    an_empty_folder_gives_way_to_a_file,
    a_folder_that_holds_a_link_does_not,
    a_file_that_may_not_be_read_is_a_fault,
    a_file_that_may_not_be_written_is_written_by_the_next_start,
    permissions_stay,
    a_full_disk_at_the_journal_leaves_the_state_before,
    a_full_disk_behind_the_journal_waits_for_room,
    a_tree_that_is_not_there_is_empty,
    a_store_that_is_not_there_is_none,
    a_name_that_is_no_text_stays_where_it_is,
    a_path_of_4090_bytes_is_reached,
    a_place_that_is_too_long_waits_for_a_shorter_word,
    two_runs_do_not_share_a_store,
]


FULL = [a_full_disk_at_the_journal_leaves_the_state_before, a_full_disk_behind_the_journal_waits_for_room]


def holds(row):
    """Whether the row holds in a new folder; a full disk is a file system of one megabyte in memory."""
    with tempfile.TemporaryDirectory() as folder:
        os.chmod(folder, 0o755)
        is_small = row in FULL
        if is_small:
            subprocess.run(["mount", "-t", "tmpfs", "-o", "size=1m", "tmpfs", folder], check=True)
        try:
            place = Place(folder)
            place.hand_over()
            row(place)
            return True
        except AssertionError as error:
            print(f"differs: {row.__name__} at line {error.__traceback__.tb_next.tb_lineno} {error}")
            return False
        finally:
            if is_small:
                subprocess.run(["umount", folder], check=True)


def main():
    global PROGRAM
    if len(sys.argv) > 1:
        PROGRAM = os.path.abspath(sys.argv[1])
    left_out = [row for row in ROWS if row in FULL and not IS_ROOT or row is a_history_is_shown_while_nobody_runs and not shows()]
    for row in left_out:
        print(f"left out: {row.__name__}")
    held = [holds(row) for row in ROWS if row not in left_out]
    print(f"{len(held)} rows over real folders, {held.count(False)} differ")
    sys.exit(0 if all(held) else 1)


if __name__ == "__main__":
    main()
