"""Documents and records that a version took, with the answers that it gave (tools/tests/stored): the program that the gate built has to
give the same ones. tools/store wrote them, by the second models."""
import concurrent.futures
import json
import os
import pathlib
import shutil
import subprocess
import sys
import tempfile

PROGRAM = pathlib.Path("crates/pegasus/out/pegasus").absolute()
STORED = pathlib.Path("tools/tests/stored")
# So many calls of each version there are at least, and its files have at most so many bytes.
LEAST, MOST = 800, 2_000_000


def put(place, files):
    for name, content in files.items():
        path = place / name
        path.parent.mkdir(parents=True, exist_ok=True)
        path.write_bytes(bytes.fromhex(content["hex"]) if isinstance(content, dict) else content.encode())


def answer(place, words):
    done = subprocess.run([PROGRAM, *words], cwd=place, stdout=subprocess.PIPE, stderr=subprocess.DEVNULL, timeout=120, check=False)
    return done.returncode, done.stdout.decode("utf-8", "surrogateescape")


def holds(path):
    """Makes each call in a folder where nothing of another one is left, and counts them."""
    stored = json.loads(path.read_text(encoding="utf-8"))
    with tempfile.TemporaryDirectory() as folder:
        place = pathlib.Path(folder)
        put(place, stored["files"])
        for name in stored["folders"]:
            (place / name).mkdir(parents=True, exist_ok=True)
        for call in stored["calls"]:
            for left in ("output", "sites"):
                shutil.rmtree(place / left, ignore_errors=True)
            put(place, call.get("besides", {}))
            found = answer(place, call["words"])
            assert found == (call["status"], call["text"]), (str(path), call["words"], found, call["status"], call["text"])
    return len(stored["calls"])


def main():
    if not PROGRAM.exists():
        print("stored: skipped, no program is built")
        return
    versions = sorted(it for it in STORED.iterdir() if it.is_dir())
    assert versions and versions[0].name == "1.0", versions
    for version in versions:
        files = sorted(version.glob("*.json"))
        assert len(files) >= 101 and sum(it.stat().st_size for it in files) <= MOST, (version, len(files))
        with concurrent.futures.ThreadPoolExecutor(os.cpu_count()) as pool:
            count = sum(pool.map(holds, files))
        assert count >= LEAST, (version, count)
        print(f"stored: ok, {count} calls of {version.name} over {len(files)} sets of documents")


main()
