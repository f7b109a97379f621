"""What the script ./pegasus does beside a run of which someone sees standard error, here on a terminal that Python makes: that
a signal reaches the program and the caller, that the line of progress is wiped, and that tools/salvage is named where a record
was kept. A stand-in is the program, which shows progress, keeps a file, and waits.

    tools/tests/watched_test.py FOLDER
"""
import os
import pathlib
import pty
import shutil
import signal
import subprocess
import sys
import time
import tty

import terminals

STANDS_IN = f"""#!{sys.executable} -S
import os, signal, sys, time
kind = sys.argv[2]
signal.signal(signal.SIGINT, signal.SIG_DFL)
os.write(2, b"\\rjobs begun: 12")
if kind not in ("empty", "ends"):
    open(".pegasus.record", "w").write("grant 0 0\\n")
if kind == "ends":
    print(*sys.argv[1:])
    print(end=sys.stdin.read())
elif kind == "stopped":
    sys.exit(6)
else:
    def caught(*_):
        os.write(1, b"caught\\n")
        os._exit(3)
    if kind == "caught":
        signal.signal(signal.SIGTERM, caught)
    open("begun", "w").close()
    time.sleep(60)
"""


def made_top(work):
    """The script over a program that is as new as its sources."""
    top = work / "top"
    (top / "crates/pegasus/out").mkdir(parents=True)
    for folder in ("src", "specs", "proofs"):
        (top / "crates/pegasus" / folder).mkdir()
    (top / "tools").mkdir()
    (top / "crates.txt").write_text("pegasus: kit\n")
    shutil.copy("pegasus", top / "pegasus")
    for name in ("commands.sh", "commands.txt"):
        shutil.copy(f"tools/{name}", top / "tools" / name)
    program = top / "crates/pegasus/out/pegasus"
    program.write_text(STANDS_IN)
    program.chmod(0o755)
    time.sleep(0.02)
    (top / "crates/pegasus/out/built").touch()
    return top / "pegasus"


def take_signals():
    """Of these none is ignored, as they are where the tests run behind `nohup` or `&`."""
    for number in (signal.SIGINT, signal.SIGTERM, signal.SIGHUP):
        signal.signal(number, signal.SIG_DFL)


def called(script, place, words, sent=None, is_terminal=True):
    """Status, output and what came to standard error of a call; `sent` is a signal for its whole group, as a terminal sends it,
    or for the script alone."""
    shutil.rmtree(place, ignore_errors=True)
    place.mkdir()
    (place / words[1]).touch()
    terminal, end = pty.openpty()
    tty.setraw(end)
    call = subprocess.Popen([script, *words], cwd=place, preexec_fn=take_signals, stdin=subprocess.PIPE, stdout=subprocess.PIPE, start_new_session=True,
                            stderr=end if is_terminal else subprocess.PIPE)
    os.close(end)
    if sent is None:
        call.stdin.write(b"in\n")
    call.stdin.close()
    if sent is not None:
        until = time.monotonic() + 30
        while not (place / "begun").exists():
            assert time.monotonic() < until, words
            time.sleep(0.01)
        number, is_whole_group = sent
        (os.killpg if is_whole_group else os.kill)(call.pid, number)
    came = terminals.read_all(terminal) if is_terminal else call.stderr.read()
    os.close(terminal)
    text = call.stdout.read().decode()
    return call.wait(timeout=30), text, came.decode()


WIPED = "\r" + 20 * " " + "\r"


def signals(script, place):
    """A signal of a terminal or of another program ends both, by it."""
    for number in (signal.SIGINT, signal.SIGTERM, signal.SIGHUP):
        for is_whole_group in (True, False):
            if number == signal.SIGINT and not is_whole_group:
                continue  # (a terminal sends it to all)
            for command, *more in (["alone"], ["run", "--workers", "4"], ["produce"], ["resume", "waits"], ["ensemble"]):
                status, text, told = called(script, place, [command, "waits", *more], (number, is_whole_group))
                assert (status, text) == (-number, ""), (command, number, status, text, told)
                assert told.startswith("\rjobs begun: 12" + WIPED) and "tools/salvage" in told, (command, number, told)
    status, text, told = called(script, place, ["alone", "empty"], (signal.SIGTERM, False))
    assert (status, text) == (-signal.SIGTERM, "") and told.endswith(WIPED), (status, told)
    status, text, told = called(script, place, ["alone", "caught"], (signal.SIGTERM, False))
    assert (status, text) == (3, "caught\n") and "salvage" not in told, (status, text, told)


def ends(script, place):
    """Of a call that ends by itself status, words, input and output are the program's."""
    for words in (["alone", "ends"], ["run", "ends", "--workers", "4", "a b"]):
        status, text, told = called(script, place, words)
        assert (status, text) == (0, " ".join(words) + "\nin\n") and "salvage" not in told, (status, text, told)
    status, text, told = called(script, place, ["alone", "stopped"])
    assert (status, text) == (6, "") and "tools/salvage" in told, (status, text, told)


def without_a_terminal(script, place):
    """Nobody sees it, so nothing is told, and the program is the process that was called."""
    status, text, told = called(script, place, ["alone", "waits"], (signal.SIGTERM, False), is_terminal=False)
    assert (status, text, told) == (-signal.SIGTERM, "", "\rjobs begun: 12"), (status, text, told)
    status, text, told = called(script, place, ["plan", "waits"], (signal.SIGTERM, False))
    assert (status, text, told) == (-signal.SIGTERM, "", "\rjobs begun: 12"), (status, text, told)


def main(words):
    work = pathlib.Path(words[0]).absolute()
    script = made_top(work)
    for test in (signals, ends, without_a_terminal):
        test(script, work / "place")
    print("watched: ok")


if __name__ == "__main__":
    main(sys.argv[1:])
