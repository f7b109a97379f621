"""Test of examples/montage/make: what it makes, planned and run by the model."""
import hashlib
import os
import pathlib
import subprocess
import sys

sys.dont_write_bytecode = True
sys.path.insert(0, "tools")
from model import commands

work = pathlib.Path(sys.argv[1])


def call(*words, folder):
    ran = subprocess.run([sys.executable, *words], cwd=folder, capture_output=True, text=True, check=False)
    assert ran.returncode == 0 and not ran.stderr, (words, ran.stderr)
    return ran.stdout.splitlines()


def mosaic(images):
    """Each image's line, and after each the digest of what is counted of each two neighbours: 2 lines, 22 bytes."""
    model = hashlib.sha256(b"2 22\n" * (images - 1)).hexdigest()
    return "".join(f"image {image:04}\n{model}\n" for image in range(images)).encode()


top = pathlib.Path.cwd()
for images, folder in ((2, "."), (10, "ten")):
    here = work / str(images)
    here.mkdir(parents=True)
    call(str(top / "examples/montage/make"), str(images), folder, folder=here)
    request = str(pathlib.Path(folder) / "request.json")
    # (paths in the documents are as seen from there)
    os.chdir(here)
    plan, run = (commands.text(command, request).splitlines() for command in ("plan", "alone"))
    os.chdir(top)
    assert f"site 0 pool {162 * images}" in plan and f"peak 0 {162 * images}" in plan
    assert len([line for line in plan if line.startswith("job ")]) == 3 * images + 2
    assert len([line for line in plan if line.startswith("task ")]) == 8 * images + 5
    assert all((here / folder / f"raw_{image:04}.txt").stat().st_size == 11 for image in range(images))
    content = mosaic(images)
    wanted = f"delivered mosaic.txt {76 * images} {hashlib.sha256(content).hexdigest()}"
    assert len(content) == 76 * images
    assert run[-2:] == [wanted, "done"]
print("montage: ok")
