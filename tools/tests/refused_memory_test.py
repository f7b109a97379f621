"""Want of memory in a run by several workers, by bench/refused_memory over the program that the gate built."""
import importlib.machinery
import importlib.util
import os
import shutil
import sys

sys.dont_write_bytecode = True
LOADER = importlib.machinery.SourceFileLoader("refused_memory", "bench/refused_memory")
bench = importlib.util.module_from_spec(importlib.util.spec_from_loader("refused_memory", LOADER))
LOADER.exec_module(bench)

if not os.path.exists(bench.PROGRAM) or shutil.which("cc") is None:
    print("refused-memory: skipped, no program that is built, or no C compiler")
    sys.exit()
whole, found = bench.ends_of(["run", "examples/diamond/request.json", "--workers", "4"])
assert len(found) > 1000, f"{len(found)} requests for memory were counted"
assert whole[0] == 0 and whole[1].endswith(b"\ndone\n"), whole
for number, (end, _) in enumerate(found, 1):
    assert end in (bench.WANT, bench.SAME), (number, end)
# Before the first call that gave up with something changed no work had begun: the documents, planning, the yard, the lock
# and its passes. Refused there, a request ended the call with all as it was, or the call went on without it.
begun = next(number for number, (end, is_changed) in enumerate(found) if end == bench.WANT and is_changed)
early = [is_changed for end, is_changed in found[:begun] if end == bench.WANT]
assert begun > 1000 and len(early) > 0.9 * begun and not any(early), (begun, len(early))
print(f"refused-memory: ok, {len(found)} requests refused in turn, {begun} of them before any work began")
