"""Sessions of the interactive programs, one key in each read: `tools/faults browse`, `form`, `files`, `watch` and `view`.

- Each request for memory fails in turn (tools/refuse.c). The exit status is 8. If the program has entered the screen,
  it leaves it; else it has written nothing.
- Each write fails in turn. The exit status is 7, and the output is a first part of the usual one.
- The screen can't be opened. The exit status is 7, nothing is written to standard output, and no file is created.
- The keys are random bytes. The program ends as usual, and its time grows in proportion to their number. A pager shows
  what `tui_pager` writes after the keys that tools/keys.py decodes from these bytes.
- Keys come in two reads, cut anywhere except after an ESC. They have the same effect as in one read. Ticks are not
  among them, since those of a read come after its keys.
- There are control characters in the input and in a paste. The output has only commands of docs/TERMINAL.md and
  printable characters.
- A program that writes answers writes them only if it ends as usual.
"""
import itertools
import json
import os
import pathlib
import random
import re
import shutil
import socket
import subprocess
import tempfile
import threading
from typing import NamedTuple

import ends
from faulty import ROOT, fail, refusing_library
from keys import pager_keys
from screens import last_screen

WIDTH, HEIGHT = 40, 12
SIZE = {"COLUMNS": str(WIDTH), "LINES": str(HEIGHT)}
# Ends a paste, if there is one. Then comes the first size again, after which the whole screen is drawn.
SIZE_AGAIN = f"\x1b[201~\x1b[8;{HEIGHT};{WIDTH}t".encode()
TICK = b"\0"
ENTER, LEAVE = ends.ENTER.encode("latin-1"), ends.LEAVE.encode("latin-1")
BEFORE = "what stood there before\n"


class Session(NamedTuple):
    """A program with its arguments and keys.

    `status` is its exit status after these keys, and `idle` its exit status if the input ends before a key has ended it.
    `quits` has the bytes that may end it. `answers` is the file of its answers, if it has any.
    """

    name: str
    program: pathlib.Path
    arguments: list
    keys: list
    status: int
    idle: int
    quits: bytes
    answers: pathlib.Path | None = None

    def answered(self):
        """Returns the content of the file of its answers."""
        return self.answers.read_text(encoding="utf-8") if self.answers else BEFORE


def one_a_read(session, keys, environment):
    """Runs a session with one key in each read. Returns the exit status, the output, and the text on standard error."""
    if session.answers:
        session.answers.write_text(BEFORE, encoding="utf-8")
    ours, its = socket.socketpair(socket.AF_UNIX, socket.SOCK_SEQPACKET)

    def give():
        try:
            for key in keys:
                ours.send(key)
            ours.shutdown(socket.SHUT_WR)
        except OSError:
            pass  # The program has ended.

    giver = threading.Thread(target=give)
    giver.start()
    with its:
        process = subprocess.Popen([session.program, *session.arguments], stdin=its, stdout=subprocess.PIPE, stderr=subprocess.PIPE,
                                   env={**os.environ, **SIZE, **environment})
    written, errors = process.communicate()
    giver.join()
    ours.close()
    return process.returncode, written, errors.decode()


def without_memory(session, work):
    """Makes each request for memory of a session fail in turn.

    Returns how many requests there are, how many the C library makes, and how many are made again.
    """
    preload = {"LD_PRELOAD": str(refusing_library(work))}
    usual = one_a_read(session, session.keys, {**preload, "REFUSE_AT": "0"})
    answers = session.answered()
    if usual[0] != session.status or not usual[1].startswith(ENTER) or not usual[1].endswith(LEAVE):
        fail("the session of", session.name, "ends with", usual[0], usual[2])
    requests, library, again = int(usual[2].split(" met, ")[0]), 0, 0
    for at in range(1, requests + 1):
        status, written, errors = one_a_read(session, session.keys, {**preload, "REFUSE_AT": str(at)})
        asker = errors.split(" refused to ")[1].strip()
        as_usual = (status, written, session.answered()) == (*usual[:2], answers)
        left = not written or written.startswith(ENTER) and written.endswith(LEAVE) and usual[1].startswith(written[: -len(LEAVE)])
        if as_usual and asker == "the C library":
            library += 1
        elif as_usual and asker == "the program, which asked again":
            again += 1
        elif status != 8 or not left or session.answered() != BEFORE or asker == "nobody":
            fail(session.name, "ends with", status, "and", written[-80:], "if request", at, "of", asker, "fails")
    return requests, library, again


def without_writes(session, work):
    """Makes each write of a session fail in turn, and returns how many there are."""
    preload = {"LD_PRELOAD": str(refusing_library(work)), "REFUSE_AT": "0"}
    usual = one_a_read(session, session.keys, preload)
    at, last = 1, b""
    while True:
        status, written, _ = one_a_read(session, session.keys, {**preload, "FAIL_WRITE_AT": str(at)})
        if (status, written) == usual[:2]:
            return at - 1
        if status != 7 or not usual[1].startswith(written) or not written.startswith(last) or written == usual[1] or session.answered() != BEFORE:
            fail(session.name, "ends with", status, "if write", at, "fails")
        at, last = at + 1, written


def without_screen(session, work):
    """Names a file for the screen that can't be opened. The program says so, and creates no file for its answers."""
    if session.answers:
        session.answers.unlink(missing_ok=True)
    screen = work / "missing" / "screen"
    done = subprocess.run([session.program, *session.arguments], stdin=subprocess.DEVNULL, capture_output=True,
                          env={**os.environ, **SIZE, "GOLDGOPHER_SCREEN": str(screen)})
    reason = f"{session.program.name}: {screen}: No such file or directory\n"
    if (done.returncode, done.stdout, done.stderr.decode()) != (7, b"", reason):
        fail(session.name, "ends with", done.returncode, "and", done.stdout, done.stderr, "if its screen can't be opened")
    if session.answers and session.answers.exists():
        fail(session.name, "has created its answers although its screen can't be opened")


def over_random_bytes(session):
    """Sends random bytes that do not end the program.

    Returns the seconds of processor time for 250,000 and for 1,000,000 of them.
    """
    some = random.Random(48)
    data = bytes(byte for byte in (some.randrange(256) for _ in range(1_050_000)) if byte not in session.quits)[:1_000_000]
    seconds = []
    for count in (250_000, 1_000_000):
        before = os.times()
        done = subprocess.run([session.program, *session.arguments], input=data[:count], capture_output=True, env={**os.environ, **SIZE})
        after = os.times()
        seconds.append(after.children_user + after.children_system - before.children_user - before.children_system)
        if done.returncode != session.idle or not done.stdout.startswith(ENTER) or not done.stdout.endswith(LEAVE):
            fail(session.name, "ends with", done.returncode, "over random bytes")
    if seconds[1] > 6 * seconds[0] + 1:
        fail(session.name, "takes", seconds, "seconds for random bytes and for four times as many")
    return seconds


def shows_same_as_pager(session, entries, work):
    """Sends random bytes, whole keys and pieces of keys.

    The last screen has to be that of `tui_pager` after the keys that the oracle decodes from them.
    """
    some = random.Random(48)
    strange = [bytes([byte]) for byte in range(256) if byte not in session.quits]
    sorts = [strange, FIFTY, [piece.encode() for piece in PIECES], [piece.encode() for piece in PIECES]]
    data_file = work / "bytes"
    pager = built("tui_pager")
    for series in range(SERIES):
        given = b"".join(some.choice(some.choice(sorts)) for _ in range(LONG)) + SIZE_AGAIN
        keys = pager_keys(given, WIDTH, HEIGHT)
        pager_input = json.dumps({**entries, "width": WIDTH, "height": HEIGHT, "keys": keys}).encode()
        printed = subprocess.run([pager], input=pager_input, capture_output=True, check=True).stdout.decode()
        expected = [line for line in printed.splitlines() if line[0] != "k"]
        data_file.write_bytes(given)
        with open(data_file, "rb") as reads:
            done = subprocess.run([session.program, *session.arguments], stdin=reads, capture_output=True, env={**os.environ, **SIZE})
        found = last_screen(done.stdout, WIDTH, HEIGHT)
        if done.returncode != session.idle or found != expected:
            fail(session.name, "ends with", done.returncode, "after series", series, "of random bytes, and shows", "\n".join(["", *found, "expected", *expected]))


def in_two_reads(session):
    """Sends the keys up to each key in one read, and in two reads that are cut within or before this key.

    The end and the screen have to be the same. There is no cut after an ESC. The last read ends with a tick. If the
    program has answers, this is done only with all keys, and the answers have to be the same instead of the screen: how
    far a list of fields is scrolled may depend on what was drawn between the reads. Returns the number of cuts.
    """
    keys = [key for key in session.keys if key != TICK]
    given, rest = b"".join(keys), SIZE_AGAIN + TICK

    def end_by(*reads):
        status, written, _ = one_a_read(session, reads, {})
        return status, session.answered() if session.answers else last_screen(written, WIDTH, HEIGHT)

    start = cuts = 0
    for end in [len(given)] if session.answers else itertools.accumulate(map(len, keys)):
        whole = end_by(given[:end] + rest)
        for cut in range(max(start, 1), end):
            if given[cut - 1 : cut] == b"\x1b":
                continue
            found = end_by(given[:cut], given[cut:end] + rest)
            cuts += 1
            if found != whole:
                fail(session.name, "ends with", found, "and not with", whole, "if its keys are cut between", given[:cut][-8:], "and", given[cut:end][:8])
        start = end
    return cuts


def sends_no_command(session, keys):
    """Tries control characters in texts and in a paste.

    The output may have only commands of docs/TERMINAL.md and printable characters, and no control character
    of a text.
    """
    status, written, _ = one_a_read(session, keys, {})
    if status != session.idle or not written.startswith(ENTER) or not written.endswith(LEAVE):
        fail(session.name, "ends with", status, "over controls")
    rest = re.sub(COMMANDS, b"", written).decode()
    controls = sorted({character for character in rest if not character.isprintable()})
    if controls:
        fail(session.name, "sends", controls)


def try_all(session, work):
    """Tries all of this with a session, and reports it in one line."""
    requests, library, again = without_memory(session, work)
    writes = without_writes(session, work)
    without_screen(session, work)
    cuts = in_two_reads(session)
    seconds = over_random_bytes(session)
    print(f"faults: {session.name}: {requests} requests failed in turn, of which {library} were of the C library and {again} were made again;",
          f"{writes} writes failed in turn; {cuts} cuts; random bytes: {seconds[0]:.1f} and {seconds[1]:.1f} seconds", flush=True)


# The table of commands in docs/TERMINAL.md: cursor to a cell, cursor to a column, colours and modifiers,
# resets, modes.
COMMANDS = (rb"\x1b\[\d+;\d+H|\x1b\[\d+G|\x1b\[\d+(;\d+){0,15}m|\x18\x1b\\|\x1b\[\?(69|6)l|\x1b\[4l|\x1b\[r|\x1b\(B|\x0f"
            rb"|\x1b\[\?(7|25|2026|2004|1049)[hl]")
CONTROLS = "a\x1b[6n\x1b]0;t\x07b\x9b5nc\x1b[201~"
PASTE = [b"\x1b[200~\x1b[6n\x1b]0;t\x07\x1b[201~"]

# ---- tui_browse: a pager

ENTRIES = {"entries": [{"title": f"entry {number}", "body": f"line {number}\n" * number + "漢字 of a long line that is wrapped, " * 3} for number in range(12)]}
HOSTILE_ENTRIES = {"entries": [{"title": CONTROLS, "body": "one\x1b[6n\x85two\x9b5n\x1b[201~\x1bP1\x1b\\three\x08\x7f\0"}, {"title": "plain", "body": ""}]}
HOSTILE_TEXT = f"{CONTROLS}\none\x1b[6n\x85two\x9b5n\x1bP1\x1b\\three\x08\x7f\0\x0b\f\r\n" + 1000 * "\x1b[201~\x9d\x1b]0;t\x07\n"
FIFTY = [b"j", b"j", b"J", b" ", b"\x1b[B", b"\x1b[6~", b"\x0c", b"\x7f", b"k", b"\x1b[F", b"\x1b[8;8;30t", b"j", b"\x1b[8;3;30t", b"j",
         b"\x1b[8;12;40t", b"K", b"\x1b[200~", b"x", b"\x1b[201~", b"\x1b[5~", b"\x1b[H", b"J", b"J", b"\0", b"\x1b"] * 2
# The pieces of the random input for the oracle, the number of inputs, and of pieces in each. Only some pieces
# are whole keys: a few of these select the first or the last entry, which hides the effect of the keys
# before.
PIECES = ["\x1b", "[", "\x1b[", "\x1b[1;", "\x1b[8;", "\x1bO", "\x1b[[", "\x1b]", "\x1bP", "\x1b[?", "\x1b\\", "\x07", "\0", "1", "2", "5", "6", "7", "8",
          ";", "~", "A", "B", "F", "H", "t", "j", "J", " ", "\x7f", "漢", "\x1b[1;2A", "\x1b[1;9B", "\x1b[5;2~", "\x1b[2A", "\x1b[7~",
          "\x1b[8;5;12t", "\x1b[8;4;90t", "\x1b[8;20;90t", "\x1b[200~", "\x1b[200;5~", "\x1b[201~", "\x1b[201;5~"]
SERIES, LONG = 1000, 80


def browse(work):
    program = built("tui_browse")
    entries, hostile, text, bad = work / "entries.json", work / "hostile.json", work / "text", work / "hostile"
    entries.write_text(json.dumps(ENTRIES), encoding="utf-8")
    hostile.write_text(json.dumps(HOSTILE_ENTRIES), encoding="utf-8")
    bad.write_text(HOSTILE_TEXT, encoding="utf-8")
    text.write_text("".join(f"line {number} of a text\n" for number in range(2500)), encoding="utf-8")
    pager = Session("browse", program, [entries], FIFTY, 0, 0, b"\x03q")
    for arguments in ([hostile], ["--text", bad]):
        sends_no_command(pager._replace(arguments=arguments), [b"J", *PASTE, b"j", b"k"])
    shows_same_as_pager(pager, ENTRIES, work)
    try_all(pager, work)
    try_all(pager._replace(name="browse --text", arguments=["--text", text]), work)


# ---- tui_form: a form

FORM = {"title": "A room", "fields": [
    {"name": "name", "label": "Who comes?", "kind": "text", "needed": True, "most": 40},
    {"name": "secret", "label": "Password", "kind": "text", "mask": True},
    {"name": "room", "label": "Which room?", "kind": "choice", "of": ["lake", "garden", "attic"], "needed": True},
    {"name": "rules", "label": "I have read the rules", "kind": "check", "needed": True},
    {"name": "note", "label": "Anything else?", "kind": "text", "value": "We come by train, 漢字."}]}
HOSTILE_FORM = {"title": CONTROLS, "fields": [{"name": CONTROLS, "label": CONTROLS, "kind": "text", "value": CONTROLS},
                                              {"name": "b", "label": "\x85\x08", "kind": "choice", "of": [CONTROLS]}]}
# A name, of which a word is deleted; the two required fields that the form reports; the secret, reached
# backwards; the note and the name again.
FILLED = [b"A", "ä".encode(), b"d", b"\x7f", b"d", b"\x1b[D", b"x", b"\x01", b"\x1b[200~", b"two\nlines", b"\x1b[201~", b"\x1b", b"\x05", b"\x17", b"\r",
          b"\x1b[C", b"\x1b[C", b" ", b"\x1b[F", b"\x1b[H", b"\x1b[8;3;30t", b"\x1b[8;9;30t", b"\0", b"\r", b" ", b" ", b" ",
          b"\x1b[Z", b"\x1b[A", b"s", "漢".encode(), b"\x7f", b"t", b"\x0c", b"\t", b"\x1b[B", b"\t", b"!", b"\x15", b"n", b"\x0b",
          b"\t", b"\x15", b"B", b"\x1b[3~", b"o", b"\x1b[8;12;40t", b"\r"]
WANTED = {"name": "Bo", "secret": "st", "room": "lake", "rules": True, "note": "n"}


def form(work):
    program = built("tui_form")
    form_file, hostile = work / "form.json", work / "hostile.json"
    form_file.write_text(json.dumps(FORM), encoding="utf-8")
    hostile.write_text(json.dumps(HOSTILE_FORM), encoding="utf-8")
    answers = work / "answers"
    session = Session("form", program, [form_file, answers], FILLED, 0, 1, b"\x03\n\r\x1b", answers)
    sends_no_command(session._replace(arguments=[hostile, answers]), [*PASTE, b"j", b"\t", b" "])
    status, _, errors = one_a_read(session, FILLED, {})
    if status or json.loads(session.answered()) != WANTED:
        fail("the form ends with", status, "and", session.answered(), errors)
    try_all(session, work)


# ---- tui_files: a folder

# Down to a file and up; a folder and out of it; names with a dot; a filter that is typed, kept and cleared; small sizes. At
# the end the second of the names is selected.
WALKED = [b"j", b"\x1b[B", b"k", b"\x1b[F", b"\x1b[H", b"\r", b"j", b"\x1b[D", b".", b"j", b".", b"/", b"p", b"e", b"\x1b[D", b"\x7f", b"\x1b[200~",
          b"a\nb", b"\x1b[201~", b"\x15", b"a", b"\r", b"\x0c", b"\x1b", b"\x1b[8;4;30t", b"\x1b[8;9;30t", b"\0", b"\x1b[6~", b"\x1b[5~",
          b"\x1b[8;12;40t", b"j", b"q"]


CONTROL_NAME = "a\x1b[6nb\x07"


def files(work):
    program = built("tui_files")
    house, chosen = work / "house", work / "chosen"
    (house / "cellar").mkdir(parents=True)
    for name, text in (("apple", "an apple\n" * 40), ("pear", "漢字\t\r\n"), (".dot", ""), (CONTROL_NAME, CONTROLS), ("cellar/wine", "red\n"), ("cellar/ale", "brown\n")):
        (house / name).write_text(text, encoding="utf-8")
    (house / "bytes").write_bytes(b"\xff\xfe")
    session = Session("files", program, [house, chosen], WALKED, 0, 0, b"\x03q\r\n\x7f\x08", chosen)
    sends_no_command(session, [b"j", b"/", *PASTE, b"\x1b"])
    status, _, errors = one_a_read(session, WALKED, {})
    if status or session.answered() != f"{house}/{CONTROL_NAME}\n":
        fail("tui_files ends with", status, "and", session.answered(), errors)
    try_all(session, work)


# ---- tui_watch: a dashboard

WATCHED = [TICK, b"p", TICK, b"p", b"\x0c", b"\x1b[8;5;20t", TICK, b"\x1b[8;1;3t", b"\x1b[8;12;40t", b"x", TICK]


def watch(work):
    machine = work / "machine"
    shutil.copytree(ROOT / "crates/tui_watch/data/machine", machine)
    session = Session("watch", built("tui_watch"), [machine], WATCHED, 0, 0, b"\x03q")
    (machine / "loadavg").write_text(CONTROLS, encoding="utf-8")
    sends_no_command(session, [TICK, *PASTE])
    try_all(session, work)


# ---- tui_view frames: scenes, one in each read

FRAMES = [json.dumps({"width": 20, "height": 4, "items": [
    {"widget": "gauge", "area": [0, 0, 20, 1], "percent": percent}, {"widget": "paragraph", "area": [0, 1, 20, 3], "text": f"{percent} of 100, 漢字"}]}).encode() + b"\n"
    for percent in (0, 40, 80)] + [b'{"width":20,"height":4,"items":[{"widget":"gauge","area":[0,0,20,1],"percent":101}]}\n', b"no scene\n"]


def view(work):
    session = Session("view frames", built("tui_view"), ["frames"], FRAMES, 0, 0, b"")
    requests, library, again = without_memory(session, work)
    writes = without_writes(session, work)
    without_screen(session, work)
    print(f"faults: {session.name}: {requests} requests failed in turn, of which {library} were of the C library and {again} were made again;",
          f"{writes} writes failed in turn", flush=True)


PROGRAMS = {"browse": browse, "form": form, "files": files, "watch": watch, "view": view}


def built(name):
    program = ROOT / "crates" / name / "out" / name
    if not program.exists():
        fail(f"build the program first: cd crates/{name} && rt run </dev/null")
    return program


def sessions(name):
    with tempfile.TemporaryDirectory() as place:
        PROGRAMS[name](pathlib.Path(place))
