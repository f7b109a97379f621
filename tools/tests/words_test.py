"""What ./pegasus answers by itself where no program is built, in 2,000 rows of words, against the program: the same status and
the same last line where it answers; and where it would build, the program doesn't tell its usage, nor that a document isn't
there. And the table of the commands, whose forms are those of the program's own line."""
import concurrent.futures
import pathlib
import random
import re
import shutil
import subprocess
import sys
import tempfile

sys.dont_write_bytecode = True
sys.path.insert(0, "tools")
import forms

TOP = pathlib.Path.cwd()
PROGRAM = TOP / "crates/pegasus/out/pegasus"
ROWS, SEED, AT_ONCE, LONG = 2000, 86, 4, 20
COMMANDS = [it.command for it in forms.read()]
JUDGES = [it.command for it in forms.read() if "RECORD" in it.files]
# What may stand in the place of a command.
OTHERS = ["alnoe", "", "-", "--", "help", "Plan", "plan ", "check\n", "é", "run2", "version", "#", "REQ", "ENS"]
THERE = ["request.json", "./request.json", "run.txt", "link.json"]
AWAY = ["nowhere.json", "nö where", "a%b", "request.json/x", "folder", "folder/", ".", "broken.json", "x" * 300,
        "folder/no.json", "=", "a\tb", "\U0001f600"]
NUMBERS = ["0", "1", "2", "02", "0002", "00002", "3", "16", "017", "9", "3001", "9999", "10000", "-3", "+3", " 3", "3 ",
           "", "two", "3.0", "٣", "0x3"]
WORKERS = ["1", "2", "16", "16", "4", "0", "17", "007", "0016", "00016", "+3", "-1", " 3", "", "9" * 20, "four", "1e1", "٣"]
OPTIONS = ["--", "-", "-w", "--worker", "--worker=4", "--workersx", "--Workers", "-workers", "--verbose", "---", "",
           "--workers=", "--workers"]


def option(chance):
    """The number of workers, in one word or in two; or something like it."""
    number = chance.choice(WORKERS)
    apart, joined = ["--workers", number], ["--workers=" + number]
    return chance.choice([apart, joined, apart, [chance.choice(OPTIONS)], ["--workers"]])


def name(chance, command):
    if command == "rehearse" or chance.random() < 0.03:
        return chance.choice(NUMBERS)
    return chance.choice(THERE if chance.random() < 0.6 else AWAY)


def row(chance):
    """Words: mostly of a command with as many names as it takes, then here and there one too many, too few, or out of place."""
    form = chance.choice(forms.read())
    words = [name(chance, form.command) for _ in form.files]
    if chance.random() < (0.7 if form.has_workers else 0.2):
        at = chance.randint(0, len(words))
        words[at:at] = option(chance)
    for _ in range(chance.choice([0, 0, 0, 0, 1, 2])):
        at = chance.randint(0, len(words))
        if words and chance.random() < 0.5:
            words.pop(min(at, len(words) - 1))
        else:
            words[at:at] = chance.choice([[name(chance, "")], option(chance), [chance.choice(OPTIONS)]])
    first = form.command if chance.random() < 0.93 else chance.choice(OTHERS)
    return [first.encode(), *(it.encode() for it in words)]


def rows():
    chance = random.Random(SEED)
    found = [[], [b"plan", b"\xff"], [b"plan", b"request.json", b"\xed\xa0\x80"], [b"\xc3", b"request.json"]]
    found += [[b"plan", b"\xe2\x82\xac"], [b"rehearse", b"3000"], [b"rehearse", b"2", b"--workers", b"16"]]
    found += [[b"--workers", b"4", b"run", b"request.json"]]
    return found + [row(chance) for _ in range(ROWS - len(found))]


def quoted(word):
    return "$'" + "".join(f"\\x{it:02x}" for it in word) + "'"


def answers(words_of, place):
    """What the script's own functions answer, all in one shell: the status, and the text."""
    calls = "".join(f"row {' '.join(map(quoted, words))}\n" for words in words_of)
    script = f"""set -u; top={quoted(bytes(TOP))}; . "$top/tools/commands.sh"
row() {{ look_at_words "$@" </dev/null; printf '%d\\0%s\\0' $? "$answer"; }}
{calls}"""
    done = subprocess.run(["bash"], cwd=place, input=script.encode(), capture_output=True, check=False)
    assert done.returncode == 0 and not done.stderr, (done.returncode, done.stderr)
    told = done.stdout.split(b"\0")[:-1]
    return [(int(status), text) for status, text in zip(told[::2], told[1::2], strict=True)]


def folder(place):
    """Where the calls are made: a request, a text that is no record's, and what can't be read."""
    shutil.copytree(TOP / "examples/hello", place / "examples/hello")
    shutil.copy(TOP / "examples/hello/request.json", place)
    (place / "run.txt").write_text("record 1\nclosed\n")
    (place / "folder").mkdir()
    (place / "link.json").symlink_to("request.json")
    (place / "broken.json").symlink_to("nowhere.json")


def of_program(words, place):
    """Its status and its last line; what has no answer for so long is a call, and runs."""
    call = {"cwd": place, "stdin": subprocess.DEVNULL, "capture_output": True, "check": False, "timeout": LONG}
    try:
        done = subprocess.run([PROGRAM, *words], **call)
    except subprocess.TimeoutExpired:
        return 0, b""
    return done.returncode, (done.stdout.splitlines() or [b""])[-1]


def is_as_built(words, own, built):
    """(What is no request is told before the record beside it is asked for; and no row's request lacks a document.)"""
    if own[0] == 3 and built == (4, b"refused request syntax"):
        return b"run.txt" in words[1:] and words[0].decode() in JUDGES
    return own == built if own[0] else built[0] not in (2, 3)


def is_one_table():
    """The table's forms are those of the page's line, which is the program's; and each has a section there."""
    page = pathlib.Path("docs/COMMANDS.md").read_text(encoding="utf-8")
    usage = re.search(r"^    usage: pegasus (.*)$", page, re.MULTILINE)[1]
    said = {f"{name} {rest}" for names, _, rest in (it.partition(" ") for it in usage.split(", ")) for name in names.split("|")}
    own = {it.words for it in forms.read()}
    assert said == own and len(said) == len(COMMANDS) == 12, said ^ own
    for command in COMMANDS:
        assert f"\n## {command}\n" in page, command


def main():
    is_one_table()
    words_of = rows()
    with tempfile.TemporaryDirectory() as work:
        place = pathlib.Path(work)
        folder(place)
        own = answers(words_of, place)
        kinds = {status: [it[0] for it in own].count(status) for status in (0, 2, 3)}
        assert len(own) == ROWS and min(kinds.values()) >= 200, kinds
        if not PROGRAM.exists():
            print("words: skipped, no program is built that could be asked")
            return
        with concurrent.futures.ThreadPoolExecutor(AT_ONCE) as pool:
            built = list(pool.map(lambda words: of_program(words, place), words_of))
    other = [it for it in zip(words_of, own, built) if not is_as_built(*it)]
    assert not other, (len(other), other[:3])
    print(f"words: ok, {kinds[2]} rows that are no call, {kinds[3]} that lack a document, and {kinds[0]} calls")


main()
