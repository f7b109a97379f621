"""Each call of the system by which the program asks for a file, or writes its text, failing in turn: the program that the
gate built runs under a small library, made here with the C compiler, that answers the Nth such call with an error of the
device.

What has to come each time: the name of the document that could not be read; or the task whose Fail stands in the record,
which tools/model calls legal, while what was delivered is whole; or a front of the text, where a write of it failed, whose
entries tools/model calls legal where there are several workers; or just what comes where none fails. `resume` is handed a whole record. So it is by one worker and by several, whose calls come in another order each time."""
import collections
import concurrent.futures
import os
import pathlib
import re
import shutil
import subprocess
import sys
import tempfile

sys.dont_write_bytecode = True
sys.path.insert(0, "tools")
import each_call_failing
from model import commands, judge as judges
from model.plan import plan_of
from model.record import Malformed
from model.survey import in_folder

PROGRAM = pathlib.Path("crates/pegasus/out/pegasus").absolute()
EXAMPLES = pathlib.Path("examples").absolute()
REQUEST = "examples/diamond/request.json"
DOCUMENTS = [REQUEST] + [f"examples/diamond/{it}.json" for it in ("diamond", "sites", "replicas", "transformations")]
RECORD = "examples/record.txt"
DELIVERED = b"c\nd\na\nb\n"
# What a line of a whole run's record begins with.
KINDS = ("grant", "arrive", "end", "clean", "closed")


class Calls:
    """Calls under the library, each in a folder of its own that has a copy of the examples and a record of the diamond."""

    def __init__(self, work):
        self.library = each_call_failing.made_library(work)
        self.counted = os.path.join(work, "calls")
        self.record = commands.text("alone", REQUEST)
        self.plan = plan_of(in_folder(".", REQUEST))

    def call(self, words, **more):
        """Status, text, the files of `output` by their names, and the drafts that are left."""
        with tempfile.TemporaryDirectory() as folder:
            at = pathlib.Path(folder)
            shutil.copytree(EXAMPLES / "diamond", at / "examples" / "diamond")
            (at / RECORD).write_text(self.record)
            environment = {**os.environ, "LD_PRELOAD": self.library, **more}
            done = subprocess.run([PROGRAM, *words], cwd=at, capture_output=True, text=True, env=environment, timeout=60)
            out = at / "output"
            files = {it.name: it.read_bytes() for it in out.iterdir()} if out.exists() else {}
            return done.returncode, done.stdout, files, list(at.glob(".pegasus.part.*"))

    def whole(self, words):
        """How the call ends where none fails, and how many calls of the system there are."""
        found = self.call(words, CALLS_FILE=self.counted)
        return found, int(pathlib.Path(self.counted).read_text())


def judge(plan, record, workers):
    """The verdict of tools/model; nothing where it is no record."""
    try:
        return judges.verdict(plan, record, workers)
    except Malformed:
        return None


def after_record(text):
    return text.split("closed\n", 1)[-1]


def is_failed_run(plan, text, workers):
    """Whether the record is legal and its first Fail is the one of which the last line tells."""
    record, rest = text.split("closed\n", 1)
    told = rest.splitlines()[-1].split(" ")
    fails = [line.split(" ") for line in record.splitlines() if line.startswith("fail ")]
    if told[:2] != ["failed", "host"]:
        return False
    if told[2] == "-":
        return record == "record 1\n" and not fails
    is_first = bool(fails) and fails[0][2:4] == [told[2], "hostfailed"]
    return is_first and judge(plan, record + "closed\n", workers) == "legal"


def is_front(plan, text, rest, workers):
    """Whether it is a front of what a whole run by so many workers prints: of its record, or of that and what comes after it."""
    record, closed, after = text.partition("closed\n")
    if closed:
        return judge(plan, record + closed, workers) == "complete" and rest.startswith(after)
    whole, _, cut = record.rpartition("\n")
    if not whole:
        return "record 1\n".startswith(cut)
    is_line = any(re.fullmatch(r"[a-z]*|[a-z]+( \d+)* ?", cut) and kind.startswith(cut.split(" ")[0]) for kind in KINDS)
    return is_line and "\nfail " not in whole and judge(plan, whole + "\nclosed\n", workers) in ("legal", "complete")


def kind_of(calls, words, wanted, found):
    """In a word, how a call ended of which one call of the system failed; nothing where it ended as it may not."""
    status, text, files, drafts = found
    workers = int(words[-1]) if "--workers" in words else 1
    if any(content != DELIVERED for content in files.values()) or len(drafts) > 1:
        return None
    if status == wanted[0] and after_record(text) == after_record(wanted[1]) and files == wanted[2]:
        return "as where none fails"
    if status == 3 and text in [f"document failed {it}\n" for it in (*DOCUMENTS, RECORD)] and not files:
        return "document failed"
    if status == 6 and (text == "failed host -\n" if words[0] == "eval" else is_failed_run(calls.plan, text, workers)):
        return "failed host"
    is_begun = is_front(calls.plan, text, after_record(wanted[1]), workers) if workers > 1 else wanted[1].startswith(text)
    if status == 7 and is_begun and files == wanted[2]:
        return "front of the text"
    return None


def fronts_are_told_apart(calls):
    """Each front of a run's text is one, and a text that isn't the front of any isn't."""
    rest = after_record(calls.record)
    assert all(is_front(calls.plan, calls.record[:end], rest, 2) for end in range(len(calls.record) + 1))
    lines = calls.record.splitlines(keepends=True)
    for wrong in ("done\n", "record 1\nrubbish", "record 1\n" + lines[2], "record 1\ngrant 2 4\n", lines[0] + "closed\n" + rest, calls.record + "x"):
        assert not is_front(calls.plan, wrong, rest, 2), wrong


def each_call(calls, pool, words):
    """Each call of the system failing in turn."""
    wanted, count = calls.whole(words)
    assert wanted[0] == 0 and count > 10, (words, wanted, count)

    def end(number):
        found = calls.call(words, FAILING_CALL=str(number))
        kind = kind_of(calls, words, wanted, found)
        assert kind is not None, (words, number, found)
        return kind

    kinds = collections.Counter(pool.map(end, range(1, count + 1)))
    assert kinds["document failed"] >= 5 and kinds["front of the text"] >= 1, (words, kinds)
    does = words[0] in ("alone", "run", "produce", "eval")
    assert (kinds["failed host"] >= (2 if words[0] == "eval" else 28)) == does, (words, kinds)
    return count


def each_write(calls, pool, words):
    """Each write of the text failing in turn, where each takes a byte."""
    wanted = calls.call(words)
    text = wanted[1]

    def ends_right(number):
        status, told, files, _ = calls.call(words, FAILING_WRITE=str(number))
        return (status, told, files) == (7, text[: number - 1], wanted[2])

    wrong = [number for number, is_right in enumerate(pool.map(ends_right, range(1, len(text) + 1)), 1) if not is_right]
    assert not wrong, (words, wrong[:5])
    assert calls.call(words, FAILING_WRITE=str(len(text) + 1))[:2] == (0, text), words
    return len(text) + 1


def main():
    if not PROGRAM.exists() or shutil.which("cc") is None:
        print("failing-calls: skipped, no program that is built, or no C compiler")
        return
    one = [[command, REQUEST] for command in ("check", "plan", "eval", "alone", "produce", "schedule")]
    verdicts = [[command, REQUEST, RECORD] for command in ("audit", "stat", "resume")]
    several = [["run", REQUEST, "--workers", str(workers)] for workers in (2, 16)]
    with tempfile.TemporaryDirectory() as work, concurrent.futures.ThreadPoolExecutor(os.cpu_count()) as pool:
        calls = Calls(work)
        fronts_are_told_apart(calls)
        failed = sum(each_call(calls, pool, words) for words in one + verdicts + several)
        cut = sum(each_write(calls, pool, words) for words in one + verdicts)
    print(f"failing-calls: ok, {failed} calls of the system and {cut} writes failed in turn")


main()
