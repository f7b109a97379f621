"""What tools/completion prints: what bash completes by it, of each kind of word; and whether zsh, where it is, can read it."""
import pathlib
import re
import shutil
import subprocess
import sys

sys.dont_write_bytecode = True
TOP = pathlib.Path.cwd()
# The words of a call, the last of which is begun, and what comes of it.
COMPLETED = (
    (["re"], ["resume", "rehearse"]),
    (["--v"], ["--version"]),
    (["check", "re"], ["request.json", "replicas.json"]),
    (["check", "f"], []),
    (["check", "request.json", "f"], []),
    (["audit", "request.json", "f"], ["f.a"]),
    (["run", "request.json", "--"], ["--workers", "--help"]),
    (["plan", "request.json", "--"], ["--help"]),
    (["run", "--workers", "1"], ["1", *(str(it) for it in range(10, 17))]),
    (["run", "--workers", "4", "d"], ["diamond.json"]),
    (["rehearse", "20", ""], ["--workers"]),
    (["nothing", ""], []),
)


def printed(shell):
    return subprocess.run([sys.executable, TOP / "tools/completion", shell], capture_output=True, text=True, check=True).stdout


def completed(words):
    """By the function that bash would call, which a shell reads as the page says."""
    asked = f"source <({sys.executable} {TOP}/tools/completion bash); complete -p pegasus >&2; " \
            f"COMP_WORDS=(pegasus {' '.join(it or repr(it) for it in words)}); COMP_CWORD={len(words)}; " \
            'compopt() { :; }; _pegasus; printf "%s\\n" "${COMPREPLY[@]}"'
    done = subprocess.run(["bash", "-c", asked], cwd=TOP / "examples/diamond", capture_output=True, text=True, check=True)
    assert done.stderr == "complete -F _pegasus pegasus\n", done.stderr
    return done.stdout.split()


def main():
    for words, wanted in COMPLETED:
        assert completed(words) == wanted, (words, completed(words))
    zsh, table = printed("zsh"), (TOP / "tools/commands.txt").read_text(encoding="utf-8")
    assert zsh.startswith("#compdef pegasus\n"), zsh
    for command in re.findall(r"^([a-z]+) ", table, re.MULTILINE):
        assert f"\n        {command}) _arguments " in zsh and f"\n        {command}) wants=" in printed("bash"), command
    if shutil.which("zsh"):
        subprocess.run(["zsh", "-n"], input=zsh, text=True, check=True)
        # (compdef is of zsh's own functions for completion, which say in _comps which function a command has)
        read = f"source <({sys.executable} {TOP}/tools/completion zsh)"
        asked = f"autoload -Uz compinit && compinit -u -D && {read} && print $_comps[pegasus]"
        found = subprocess.run(["zsh", "-f", "-c", asked], capture_output=True, text=True, check=True)
        assert found.stdout == "_pegasus\n", found
    done = subprocess.run([sys.executable, TOP / "tools/completion", "fish"], capture_output=True, text=True, check=False)
    assert done.returncode == 2 and not done.stdout and "choose from 'bash', 'zsh'" in done.stderr, done
    print(f"completion: ok{'' if shutil.which('zsh') else ', but for zsh, which is not there'}")


main()
