"""Tests of what SECURITY.md says of the tools: a YAML text can't have anything run or made, and a page of tools/report shows what
stands in documents as text alone."""
import json
import pathlib
import subprocess
import sys
import tempfile

TOP = pathlib.Path.cwd()
MODEL = TOP / "tools/model/__main__.py"
HOSTILE = "<script>alert(1)</script>"
TAGS = ("!!python/object/apply:os.mkdir [made]", "!!python/object/new:os.system [mkdir made]", "!!python/name:os.mkdir ''", "!!python/module:os ''")


def call(place, *words):
    done = subprocess.run([sys.executable, *map(str, words)], cwd=place, capture_output=True, text=True, check=False)
    return done.returncode, done.stdout, done.stderr


def yaml_makes_nothing(place):
    """Tags that make Python's own objects are refused, in the place of a workflow's name and of the whole of it."""
    for tag in TAGS:
        for text in (f"{tag}\n", f"pegasus: '5.0'\nname: {tag}\njobs: []\n"):
            (place / "workflow.yml").write_text(text)
            status, printed, errors = call(place, TOP / "tools/from-pegasus", "workflow.yml", "mine")
            assert status == 1 and not printed and errors.startswith("from-pegasus: "), (tag, status, printed, errors)
            assert sorted(it.name for it in place.iterdir()) == ["workflow.yml"], (tag, list(place.iterdir()))
    return 2 * len(TAGS)


def pages_show_text(place):
    """Names of jobs, files and keys that would be a script of the page."""
    pools = [{"name": "pool"}]
    tools = [{"name": HOSTILE, "sites": [{"name": "pool", "pfn": "x", "type": "installed"}]}]
    job = {"type": "job", "id": HOSTILE, "name": HOSTILE, HOSTILE: 1, "arguments": ["word"], "uses": [{"lfn": HOSTILE, "type": "output"}]}
    workflow = {"pegasus": "5.0", "name": HOSTILE, "siteCatalog": {"sites": pools}, "replicaCatalog": {"replicas": []},
                "transformationCatalog": {"transformations": tools}, "jobs": [job]}
    request = {"workflow": "w.json", "execute": [{"site": "pool", "bound": 1000}], "default_size": 100, "tools": {HOSTILE: "text"}}
    (place / "w.json").write_text(json.dumps(workflow))
    (place / "request.json").write_text(json.dumps(request))
    (place / "run.txt").write_text(call(place, MODEL, "alone", "request.json")[1])
    for words in ([], ["run.txt"]):
        status, page, errors = call(place, TOP / "tools/report", "--program", MODEL, "request.json", *words)
        assert status == 0 and "<script" not in page and "&lt;script&gt;" in page, (words, status, errors)
    return 2


def main():
    counts = []
    has_yaml = call(TOP, "-c", "import yaml")[0] == 0
    if not has_yaml:
        print("security: skipped, YAML that would run something: no yaml package")
    for subject in (yaml_makes_nothing, pages_show_text) if has_yaml else (pages_show_text,):
        with tempfile.TemporaryDirectory() as work:
            counts.append(subject(pathlib.Path(work)))
    print(f"security: ok, {sum(counts)} calls")


main()
