"""Tests of the interactive programs for `tools/live_check`: each runs under ./live in tmux, as its user would try it.

They try keys, a paste, a narrow terminal and one that is too small, Ctrl-Z and `fg`, each way to end, and a
kill. What the programs have to show is worked out by hand from docs/PROGRAMS.md.
"""
import json
import os
import pathlib
import shutil
import signal
import subprocess
import time
from typing import NamedTuple

from tmux import MODES, ROOT, SIZE

CRATES = ROOT / "crates"
NARROW, TINY = (30, 9), (8, 2)
LIMIT = 1_048_576


class Program(NamedTuple):
    """The command line of a program, and what is on its first screen, on a narrow one and on a tiny one."""

    command: str
    first: list
    narrow: list
    tiny: list

    def name(self):
        return self.command.split()[0]


def is_built(name):
    """Whether ./live runs the proved program, so that nothing is built here, and standard error says nothing more."""
    found = subprocess.run([ROOT / "tools/program", "--built", name], check=False, capture_output=True, text=True).stdout
    if found == f"{CRATES / name / 'out' / name}\n":
        return True
    print(f"tools/live_check: {name} was skipped, since there is no proved program newer than its sources")
    return False


def sizes(tmux, program):
    """Tries a narrow terminal, one that is too small, and the first size again."""
    name = program.name()
    tmux.resize(*NARROW)
    tmux.shows(f"{name}: a narrow terminal", *program.narrow)
    tmux.resize(*TINY)
    tmux.shows(f"{name}: a tiny terminal", *program.tiny)
    tmux.resize(*SIZE)
    tmux.shows(f"{name}: the first size again", *program.first)


def stop_and_continue(tmux, name, *expected):
    """Tries Ctrl-Z, another command and `fg`."""
    tmux.keys("C-z")
    tmux.shows(f"{name}: Ctrl-Z", "Stopped")
    tmux.until(f"{name}: the modes after Ctrl-Z", lambda: tmux.query(MODES[2:]) == tmux.modes.split(" ", 2)[2])
    tmux.equal(f"{name}: stty -a after Ctrl-Z", tmux.run("stty -a"), tmux.lines)
    tmux.type("clear; fg; echo $? >status")
    tmux.shows(f"{name}: fg", *expected)


def kills(tmux, program):
    """Tries Ctrl-C, a signal to ./live, and a kill of the program."""
    name = program.name()
    tmux.start(program.command, program.first[0])
    tmux.keys("C-c")
    tmux.ended(f"{name}: Ctrl-C", 130)
    tmux.start(program.command, program.first[0])
    os.kill(tmux.process("live"), signal.SIGTERM)
    tmux.ended(f"{name}: TERM", 143)
    tmux.start(program.command, program.first[0])
    os.kill(tmux.process(f"out/{name}"), signal.SIGKILL)
    tmux.ended(f"{name}: killed", 137)


def common_tests(tmux, program):
    """Tests what all programs that take keys have in common."""
    tmux.start(program.command, program.first[0])
    tmux.shows(f"{program.name()}: the first screen", *program.first)
    sizes(tmux, program)
    stop_and_continue(tmux, program.name(), *program.first)
    tmux.keys("C-c")
    tmux.ended_after_fg(f"{program.name()}: Ctrl-C after fg", 130)
    kills(tmux, program)


def rejects(tmux, name, cases):
    """Tests errors after which the screen is not entered. A case has the arguments, the exit status and the output."""
    for arguments, status, output in cases:
        tmux.start(f"{name} {arguments}".strip(), output[0] if output else "ready>")
        tmux.ended(f"{name} {arguments}", status, *output)


def browses(tmux):
    """tui_browse: entries and texts."""
    if not is_built("tui_browse"):
        return
    shutil.copy(CRATES / "tui_browse/data/entries.json", tmux.folder)
    (tmux.folder / "text").write_text("".join(f"line {number}\n" for number in range(1, 1502)), encoding="utf-8")
    (tmux.folder / "latin").write_bytes(b"caf\xe9\n")
    common_tests(tmux, Program("tui_browse entries.json", ["│>Rattle", "Each function may have a contract.", "1/3"], ["│>Rattle", "1/3"], ["too smal"]))
    tmux.start("tui_browse entries.json", "1/3")
    tmux.keys("Down")
    tmux.shows("the second entry", "│>Cells", "A buffer holds a cell", "2/3")
    tmux.keys("End")
    tmux.shows("the last entry", ">Wide 漢字", "漢字 stand in two columns each.", "3/3")
    tmux.resize(30, 4)
    tmux.until("too few rows", lambda: tmux.screen() == "too small")
    tmux.keys("k")
    tmux.resize(*SIZE)
    tmux.shows("rows again", "│>Cells", "2/3")
    tmux.text("kq")
    tmux.ended("q of tui_browse", 0)
    tmux.start("tui_browse --text text", "1/2")
    tmux.shows("the first piece", "│>1 line 1 ", "││line 1 ")
    tmux.text("j  ")
    tmux.shows("the second piece", "│>1001 line 1001", "││line 1019")
    tmux.keys("C-c")
    tmux.ended("Ctrl-C of tui_browse", 130)
    rejects(tmux, "tui_browse", [("text", 4, ["refused: not JSON", "tui_browse: text: invalid JSON at line 1 column 1"]), ("--text latin", 4, ["refused: not UTF-8"]), ("", 2, ["refused: usage", "usage: tui_browse [--text] FILE"]), ("nothing", 6, ["tui_browse: nothing: No such file or directory"])])
    (tmux.folder / "wrong.json").write_text('{"entries": [{"title": "one", "body": ""}, {"title": 2, "body": ""}]}', encoding="utf-8")
    (tmux.folder / "long.json").write_text('{"entries": []}'.ljust(LIMIT + 1), encoding="utf-8")
    # The screen has 60 columns.
    said = ["tui_browse: wrong.json: entries[1].title: expected a string", "of 0 to 1000 bytes, found the number 2"]
    rejects(tmux, "tui_browse", [("wrong.json", 5, ["refused: field title at 1", *said]), ("long.json", 3, ["refused: too long"])])


def lines_of(count, length):
    """Returns lines of a length, newlines included. Each begins with its number in four digits."""
    return [f"{number:04}".ljust(length - 1, "x") + "\n" for number in range(1, count + 1)]


# Texts, how many pieces they have, keys, and what is on the screen after these keys: the title of a piece,
# and its first lines. A piece has at most 1,000 lines and 65,536 bytes, which are 512 lines of 128 bytes. If
# a line is longer, the piece ends before the character that would pass the limit.
TEXTS = {
    "65,536 bytes": ("".join(lines_of(600, 128)), 2, "j", ["│>513 0513xxxxxx", "││0513xxx", "2/2"]),
    "a byte more": ("x" + "".join(lines_of(600, 128)), 2, "j", ["│>512 0512xxxxxx", "││0512xxx", "2/2"]),
    "a line of two pieces": (65_535 * "a" + "漢bc\nlast\n", 2, "j", ["│>1 漢bc  ", "││漢bc  ", "││last  ", "2/2"]),
    "a third line of two pieces": ("one\ntwo\n" + 65_530 * "a" + 65_535 * "b" + "漢\n", 3, "jj", ["│>3 bbbb", "││bbbb", "3/3"]),
    "no text": ("", 0, "j", ["││ ", "0/0"]),
    "1,000 pieces": (1_000_000 * "\n", 1000, "j", ["│>1001  ", "2/1000"]),
    "1,048,576 bytes": ("".join(lines_of(LIMIT // 64, 64)), 17, "j", ["│>1001 1001xxxxxx", "││1001xxx", "2/17"]),
}


def cuts_texts(tmux):
    """tui_browse --text: where a text is cut into pieces, and how long it may be."""
    if not is_built("tui_browse"):
        return
    for name, (text, pieces, keys, expected) in TEXTS.items():
        (tmux.folder / "text").write_text(text, encoding="utf-8")
        tmux.start("tui_browse --text text", f"{min(pieces, 1)}/{pieces}")
        tmux.text(keys)
        tmux.shows(name, *expected)
        tmux.text("q")
        tmux.ended(name, 0)
    for name, text in (("pieces", 1_000_001 * "\n"), ("bytes", "x" * (LIMIT + 1))):
        (tmux.folder / name).write_text(text, encoding="utf-8")
        rejects(tmux, "tui_browse", [(f"--text {name}", 3, ["refused: too long"])])


def goes_through_folders(tmux):
    """tui_files: folders and their names, a filter that is pasted, the file CHOSEN."""
    if not is_built("tui_files"):
        return
    folder = tmux.folder / "house"
    (folder / "cellar").mkdir(parents=True)
    (folder / "cellar/wine").write_text("red\n", encoding="utf-8")
    for name, text in (("apple", "an apple\n"), ("pear", "a pear\n"), (".hidden", "")):
        (folder / name).write_text(text, encoding="utf-8")
    (folder / "bytes").write_bytes(b"\xff\xfe")
    common_tests(tmux, Program("tui_files house chosen", [">cellar/", "1/4", "apple"], [">cellar/", "1/4"], ["too smal"]))
    tmux.start("tui_files house chosen", ">cellar/")
    tmux.keys("Down")
    tmux.shows("the beginning of a file", ">apple", "an apple", "2/4")
    tmux.text("j")
    tmux.shows("a file that is not text", ">bytes", "binary", "3/4")
    tmux.text(".")
    tmux.shows("names with a dot", ".hidden", "4/5")
    tmux.text(".")
    tmux.keys("Home", "Enter")
    tmux.shows("a folder", ">wine", "red", "1/1")
    tmux.keys("Left")
    tmux.shows("out of it", ">cellar/", "1/4")
    tmux.text("/")
    tmux.paste("pe")
    tmux.shows("a filter that was pasted", ">pear", "/pe")
    tmux.keys("Enter", "Enter")
    tmux.ended("Enter at a file", 0)
    tmux.equal("the path that was chosen", (tmux.folder / "chosen").read_text(encoding="utf-8"), f"{folder.resolve()}/pear\n")
    tmux.equal("a path that can't be written", tmux.run("./live tui_files house house"), "tui_files: house: Is a directory\n")
    tmux.start("tui_files house chosen", ">cellar/")
    tmux.equal("CHOSEN during a session", (tmux.folder / "chosen").read_text(encoding="utf-8"), f"{folder.resolve()}/pear\n")
    tmux.keys("C-c")
    tmux.ended("Ctrl-C before a path is written", 130)
    tmux.equal("CHOSEN after Ctrl-C", (tmux.folder / "chosen").read_text(encoding="utf-8"), f"{folder.resolve()}/pear\n")
    rejects(tmux, "tui_files", [("a b c", 2, ["refused: usage", "usage: tui_files [--folder] [FOLDER [CHOSEN]]"]), ("nothing", 6, ["tui_files: nothing: No such file or directory"])])


FORM = {"title": "Ask", "fields": [{"name": "who", "label": "Who?", "kind": "text", "needed": True}, {"name": "secret", "label": "Secret", "kind": "text", "mask": True},
                                   {"name": "room", "label": "Room", "kind": "choice", "of": ["sea", "hill"]}, {"name": "bath", "label": "Bath", "kind": "check"}]}


def asks(tmux):
    """tui_form: texts, one of them pasted, a choice and a check; a required field; the answers, and an end without them."""
    if not is_built("tui_form"):
        return
    (tmux.folder / "form.json").write_text(json.dumps(FORM), encoding="utf-8")
    (tmux.folder / "wrong.json").write_text('{"title": 1}', encoding="utf-8")
    answers = tmux.folder / "answers"
    answers.write_text("before\n", encoding="utf-8")
    common_tests(tmux, Program("tui_form form.json answers", ["┌Ask", "> Who? *", "Room", "[ ]"], ["┌Ask", "> Who? *", "Secret"], ["too smal"]))
    tmux.start("tui_form form.json answers", "> Who? *")
    tmux.keys("Enter")
    tmux.shows("a required field without an answer", "> Who? * needed")
    tmux.paste("Ada\nL")
    tmux.shows("a paste whose newline becomes a space", "Ada L")
    tmux.keys("Tab")
    tmux.text("漢x")
    tmux.shows("a mask", "> Secret", "**")
    tmux.keys("Tab", "Right", "Tab", "Space")
    tmux.shows("a choice and a check", "< sea >", "> Bath", "[x]")
    tmux.equal("answers before the form is accepted", answers.read_text(encoding="utf-8"), "before\n")
    tmux.keys("Enter")
    tmux.ended("an accepted form", 0)
    tmux.equal("the answers", answers.read_text(encoding="utf-8"), '{"who":"Ada L","secret":"漢x","room":"sea","bath":true}\n')
    tmux.start("tui_form form.json answers", "> Who? *")
    tmux.keys("Escape")
    tmux.shows("one Esc", "> Who? *")
    tmux.keys("Escape")
    tmux.ended("Esc twice", 1)
    (tmux.folder / "full").mkdir(exist_ok=True)
    tmux.equal("answers that can't be written", tmux.run("./live tui_form form.json full"), "tui_form: full: Is a directory\n")
    rejects(tmux, "tui_form", [("", 2, ["refused: usage", "usage: tui_form FORM [ANSWERS]"]), ("wrong.json", 5, ["refused: field title", "tui_form: wrong.json: title: expected a string, found the nu", "mber 1"]), ("nothing", 6, ["tui_form: nothing: No such file or directory"])])


def watches(tmux):
    """tui_watch over a stored machine."""
    if not is_built("tui_watch"):
        return
    shutil.copytree(CRATES / "tui_watch/data/machine", tmux.folder / "machine")
    common_tests(tmux, Program("tui_watch machine", ["load 0.52 0.58 0.59", "2 processors ", "PID S"], ["load 0.52 0.58 0.59"], ["load 0.5"]))
    tmux.start("tui_watch machine", "load 0.52")
    (tmux.folder / "machine/loadavg").write_text("9.00 1.00 1.00 1/2 3\n", encoding="utf-8")
    tmux.shows("the next second", "load 9.00 1.00 1.00")
    tmux.text("p")
    (tmux.folder / "machine/loadavg").unlink()
    tmux.shows("a pause", "load 9.00 1.00 1.00")
    tmux.text("p")
    tmux.shows("a file that is missing", "no loadavg")
    tmux.text("q")
    tmux.ended("q of tui_watch", 0)
    quits_after_seconds(tmux)
    rejects(tmux, "tui_watch", [("a b", 2, ["refused: usage", "usage: tui_watch [FOLDER]"])])


def quits_after_seconds(tmux):
    """tui_watch over /proc is stopped until 2,000 seconds have piled up. Reading the machine at each would take long."""
    tmux.start("tui_watch", "load ")
    program = tmux.process("out/tui_watch")
    os.kill(program, signal.SIGSTOP)
    pathlib.Path(f"/proc/{program}/fd/0").write_bytes(bytes(2000))
    tmux.text("q")
    os.kill(program, signal.SIGCONT)
    begin = time.monotonic()
    tmux.until("q after 2,000 seconds", lambda: tmux.status() is not None)
    tmux.equal("q after 2,000 seconds: within a second", time.monotonic() - begin < 1, True)
    tmux.ended("q after 2,000 seconds", 0)


def fits_in_pipes(tmux):
    """A form, a folder and a path in $( ), a text from a pipe, and `-` where standard input gives the keys."""
    if not all(is_built(name) for name in ("tui_browse", "tui_files", "tui_form")):
        return
    house = tmux.folder.resolve() / "house"
    (tmux.folder / "l").write_text("".join(f"{number:08}\n" for number in range(1, 100_001)), encoding="utf-8")
    tmux.start("tui_form form.json", "> Who? *", "a=$(", ")")
    tmux.text("Ada")
    tmux.keys("C-z")
    tmux.shows("Ctrl-Z is off while answers are captured", "> Who? *", "Ada")
    tmux.keys("Enter")
    tmux.ended("answers that are captured", 0)
    tmux.equal("the answers in a variable", tmux.run('echo "$a"'), '{"who":"Ada","secret":"","room":"","bath":false}\n')
    tmux.start("tui_form form.json", "> Who? *", "a=$(", ")")
    tmux.keys("C-c")
    tmux.ended("Ctrl-C while answers are captured", None, "")
    tmux.start("tui_form - got", "> Who? *", "cat form.json|")
    tmux.text("Bob")
    tmux.keys("Enter")
    tmux.ended("a form from a pipe", 0)
    tmux.equal("the answers to a form from a pipe", (tmux.folder / "got").read_text(encoding="utf-8"), '{"who":"Bob","secret":"","room":"","bath":false}\n')
    tmux.start("tui_form form.json - ", "> Who? *", "", "|cat")
    tmux.text("Eve")
    tmux.keys("Enter")
    tmux.ended("answers on standard output", 0, '{"who":"Eve","secret":"","room":"","bath":false}')
    for option, path in (("", house / "apple"), ("--folder ", house)):
        tmux.start(f"tui_files {option}house", ">cellar/", "f=$(", ")")
        tmux.text("jq")
        tmux.ended(f"a path that is captured: {option}", 0)
        tmux.equal(f"the path in a variable: {option}", tmux.run('echo "$f"'), f"{path}\n")
    tmux.start("tui_browse --text -", "1/100", "cat l | ")
    tmux.text("j")
    tmux.shows("the second piece of a text from a pipe", "│>1001 00001001", "││00001001", "2/100")
    tmux.resize(*NARROW)
    tmux.shows("a text from a pipe on a narrow terminal", "│>1001", "2/100")
    tmux.resize(*SIZE)
    tmux.keys("C-z")
    tmux.shows("Ctrl-Z after a pipe", "Stopped")
    tmux.equal("stty -a after Ctrl-Z after a pipe", tmux.run("stty -a"), tmux.lines)
    tmux.type("clear; fg; echo $? >status")
    tmux.shows("fg after a pipe", "│>1001 00001001", "2/100")
    tmux.text("q")
    tmux.ended_after_fg("a text from a pipe", 0)
    rejects(tmux, "tui_browse", [("-", 6, ["tui_browse: -: standard input gives the keys"])])


def is_installed(tmux):
    """What tools/install copies runs without the repository."""
    prefix = tmux.folder / "p"
    if subprocess.run([ROOT / "tools/install", prefix], check=False).returncode:
        print("tools/live_check: tools/install was skipped, since not all programs are built")
        return
    shutil.copy(CRATES / "tui_browse/data/entries.json", tmux.folder / "e")
    tmux.start("tui_browse e", "1/3", live="p/bin/goldgopher-live")
    tmux.text("jq")
    tmux.ended("an installed program", 0)
    found = tmux.run("p/bin/goldgopher-live tui_none")
    tmux.equal("no such program", found, f"live: there is no program tui_none in {prefix.resolve()}/libexec/goldgopher\n")


def scene(text, width=20):
    return json.dumps({"width": width, "height": 2, "items": [{"area": [0, 0, width, 1], "widget": "paragraph", "text": text}]}) + "\n"


def feed(tmux, name, lines):
    """Writes a script whose output is scenes."""
    script = tmux.folder / name
    script.write_text(f"#!/bin/sh\n{lines}\n", encoding="utf-8")
    script.chmod(0o755)


def shows_scenes(tmux):
    """tui_view frames: scenes, a line that is not a scene, Ctrl-Z and `fg`, and each way to end."""
    if not is_built("tui_view"):
        return
    for name, lines in (("one", scene("one")), ("two", "\n" + scene("two") + "no scene\n"), ("three", scene("three", 30))):
        (tmux.folder / name).write_text(lines, encoding="utf-8")
    feed(tmux, "both", "cat one; sleep 2; cat two; sleep 2")
    feed(tmux, "other", "cat one; sleep 5; cat three; sleep 2")
    feed(tmux, "hold", "cat one; sleep 5")
    tmux.start("tui_view frames", "one", "./both | ")
    tmux.shows("the next scene, and a line that is not a scene", "two", "refused: not JSON")
    tmux.ended("the end of scenes", 0)
    tmux.start("tui_view frames", "one", "./other | ")
    tmux.resize(*NARROW)
    tmux.shows("a scene on a narrow terminal", "one")
    tmux.resize(*SIZE)
    tmux.keys("C-z")
    tmux.shows("Ctrl-Z of scenes", "Stopped")
    tmux.equal("Ctrl-Z of scenes: stty -a", tmux.run("stty -a"), tmux.lines)
    tmux.type("clear; fg; echo $? >status")
    tmux.shows("a scene of another size after fg", "three")
    tmux.ended_after_fg("the end of scenes after fg", 0)
    tmux.start("tui_view frames", "one", "./hold | ")
    tmux.keys("C-c")
    tmux.ended("Ctrl-C of scenes", 130)
    tmux.start("tui_view frames", "one", "./hold | ")
    os.kill(tmux.process("out/tui_view"), signal.SIGKILL)
    tmux.ended("scenes: killed", 137)
    tmux.start("tui_view frames", "one", "./hold | ")
    tmux.text("xyz")
    tmux.keys("Enter", "Enter")
    tmux.until("keys that are typed at scenes", lambda: tmux.screen() == "one")
    tmux.ended("scenes at which keys were typed", 0)
    tmux.start("tui_view none", "refused")
    tmux.ended("tui_view none", 2, "refused: usage", "usage: tui_view frames | tui_view rows [FILE]")


def keeps_a_list(tmux):
    """list_app_example of docs/TASKS.md: a list of 20 columns and 4 rows, until it gets another size."""
    if not is_built("list_app_example"):
        return
    common_tests(tmux, Program("list_app_example", ["> apples", "  dates"], ["> apples", "  figs"], ["> apples", "  brea"]))
    tmux.start("list_app_example", "> apples")
    tmux.text("jjj")
    tmux.shows("the last row", "  apples", "> dates")
    tmux.keys("Down")
    tmux.shows("a row below it", "  bread", "> eggs")
    tmux.text("k")
    tmux.shows("the row above", "> dates", "  eggs")
    tmux.text("q")
    tmux.ended("q of list_app_example", 0)


PROGRAMS = (browses, cuts_texts, goes_through_folders, asks, watches, fits_in_pipes, is_installed, shows_scenes, keeps_a_list)
