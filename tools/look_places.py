"""What the system says of the files and folders that a plan needs, for tools/why: replicas, the folders of sites and of the
output, and names that no file can have. Nothing is written: whether a file can be made in a folder is tried by one without a
name, which goes as it is closed."""
from __future__ import annotations

import errno
import hashlib
import os
import stat

import endings
import names
from findings import in_the_way
from model.store import file_name, path_of
from model.words import printed

plain = names.plain
SITES, OUTPUT = "sites", "output"
PIECE = 2**20


def in_words(fault):
    return os.strerror(fault.errno) if fault.errno else str(fault)


def standing(path):
    """What stands at a path itself, be it a link: nothing, a folder, a file, or something else."""
    try:
        mode = os.lstat(path).st_mode
    except FileNotFoundError:
        return None
    return "folder" if stat.S_ISDIR(mode) else "file" if stat.S_ISREG(mode) else "something else than a file or a folder"


# Replicas


def digest_of(path):
    summed = hashlib.sha256()
    with open(path, "rb") as file:
        while piece := file.read(PIECE):
            summed.update(piece)
    return summed.hexdigest()


def fault_of_file(path, declared, wanted):
    """The words of the failure that a replica comes to, as the program ends with it, and what the system says of the file."""
    try:
        found = os.stat(path)
        if not stat.S_ISREG(found.st_mode):
            return ["host"], f"{path} is no file"
        if found.st_size > declared:
            return ["replica", str(declared), str(found.st_size)], f"{path} has {found.st_size} bytes, and {declared} are declared"
        with open(path, "rb"):
            pass
        got = wanted and digest_of(path)
    except FileNotFoundError as fault:
        return ["absent"], f"{path}: {in_words(fault)}"
    except (OSError, ValueError) as fault:
        return ["host"], f"{path}: {in_words(fault) if isinstance(fault, OSError) else fault}"
    if got != wanted:
        return ["checksum", wanted, got], f"{path} has the SHA-256 {got}, and {wanted} is registered"
    return None


def fault_of_replica(plan, task):
    file = task.moved[0]
    path = path_of(task.pfn)
    if path is None:
        return ["absent"], f"{plain(task.pfn)}: a place with another scheme than file:// is never there"
    return fault_of_file(path, plan.sizes[file], plan.sums.get(file))


def line_of(plan, number, words):
    """The line with which a call ends for a replica."""
    task = plan.tasks[number]
    name, (kind, *more) = printed(plan.files[task.moved[0]]), words
    if kind == "host":
        return f"failed host {number}"
    return " ".join(["failed", kind, name, *([printed(task.pfn)] if kind == "absent" else more)])


def users_of(plan, number):
    """What a transfer is for: the jobs that read its file there, or the output."""
    task = plan.tasks[number]
    if not task.writes:
        return "which is requested"
    readers = [job for other in plan.tasks if number in other.after for job in other.jobs
               if task.moved[0] in plan.workflow.jobs[job].inputs]
    return "for " + names.listed(f"{plain(plan.workflow.jobs[job].id)} ({plain(plan.workflow.jobs[job].transformation[1])})" for job in readers)


def of_replicas(plan, numbers=None):
    """Each replica that isn't there, is too long, can't be read or has other bytes; those of some tasks, or of all."""
    found = {}
    for number, task in enumerate(plan.tasks):
        if task.pfn is not None and (numbers is None or number in numbers):
            found.setdefault((task.moved[0], task.pfn), []).append(number)
    for (file, pfn), tasks in found.items():
        fault = fault_of_replica(plan, plan.tasks[tasks[0]])
        if fault:
            words, said = fault
            line, name = line_of(plan, tasks[0], words), plan.files[file]
            yield in_the_way("replica", f"replica {plain(name)}: {said}", f"task {tasks[0]} brings it, {users_of(plan, tasks[0])}",
                             endings.advice(line), line=line, file=name, pfn=pfn, tasks=tasks)


# Folders


def can_be_written(folder):
    """Why no file can be made in a folder, or nothing where one can."""
    try:
        os.close(os.open(folder, os.O_TMPFILE | os.O_WRONLY, 0o600))
    except OSError as fault:
        if fault.errno not in (errno.EOPNOTSUPP, errno.EISDIR, errno.EINVAL):
            return in_words(fault)
        if not os.access(folder, os.W_OK | os.X_OK):
            return os.strerror(errno.EACCES)
    return None


def of_folder(path):
    """Why files can't be made in a folder, or the folder itself can't, or nothing."""
    what = standing(path)
    if what is None:
        return None
    if what != "folder":
        return f"{path} is {'a file' if what == 'file' else what}, where a folder is to stand"
    fault = can_be_written(path)
    return f"{path} can't be written: {fault}" if fault else None


def site_folder(name):
    return f"{SITES}/{file_name(name)}"


def used_sites(plan):
    used = {site for task in plan.tasks for site, _ in task.reads + task.writes}
    return [plan.sites[site] for site in sorted(used)]


def folders(plan):
    """The folders in which a plan's files are written, the working folder first."""
    sites = [site_folder(name) for name in used_sites(plan)]
    return [".", *([SITES, *sites] if sites else []), *([OUTPUT] if any(task.is_delivery() for task in plan.tasks) else [])]


def safely(look, path):
    """What a look at a path says, or what the system says where it can't be looked at."""
    try:
        return look(path)
    except (OSError, ValueError) as fault:
        return f"{path}: {in_words(fault) if isinstance(fault, OSError) else fault}"


def of_folders(plan):
    """The folders in which no file can be written, and what stands where a file is to come."""
    wrong = set()
    for path in folders(plan) if plan.tasks else []:
        is_told = os.path.dirname(path) in wrong or names_too_long([os.path.basename(path)])
        said = None if is_told else safely(of_folder, path)
        if said:
            wrong.add(path)
            yield in_the_way("folder", said, endings.advice("failed host 0"), path=path)
    for path in sorted(it for it in os.listdir(".") if it.startswith(".pegasus.part.")):
        if os.path.isdir(path) and not os.path.islink(path):
            yield in_the_way("folder", f"{path} is a folder, where a file is to be written before it gets its name", path=path)
    for task in plan.tasks:
        if task.is_delivery():
            path = f"{OUTPUT}/{file_name(plan.files[task.moved[0]])}"
            if os.path.isdir(path) and not os.path.islink(path):
                yield in_the_way("folder", f"{path} is a folder, where a file is to be delivered", path=path)


def of_sites(plan):
    """The sites whose folders aren't empty."""
    for name in used_sites(plan):
        path = site_folder(name)
        try:
            left = sorted(os.listdir(path)) if standing(SITES) == standing(path) == "folder" else []
        except (OSError, ValueError):
            left = []
        if left:
            line = f"failed scratch {printed(name)}"
            yield in_the_way("site", f"{path} isn't empty: {names.listed(left)}", endings.advice(line), line=line, site=name, files=left)


def of_others():
    """That another run has the folder, as far as the system tells it."""
    try:
        here = os.stat(".")
        with open("/proc/locks", encoding="ascii") as file:
            locks = [line.split() for line in file]
    except (OSError, UnicodeDecodeError):
        return
    inode = f"{os.major(here.st_dev):02x}:{os.minor(here.st_dev):02x}:{here.st_ino}"
    held = [words[4] for words in locks if len(words) > 5 and words[1] == "FLOCK" and words[5] == inode]
    if held:
        yield in_the_way("run", f"another run has this folder: the process {held[0]}", "wait for it, or call in another folder", process=held[0])


# Names


def most_letters():
    try:
        return os.pathconf(".", "PC_NAME_MAX")
    except (OSError, ValueError):
        return 255


def names_too_long(called):
    most = most_letters()
    return [it for it in called if len(it.encode("utf-8", "surrogateescape")) > most or "\0" in it]


def of_names(plan):
    """The names of sites and files that no file of the system can have."""
    files = sorted({file for task in plan.tasks for file in task.moved})
    for what, listed in (("site", used_sites(plan)), ("file", [plan.files[file] for file in files])):
        for name in listed:
            called = file_name(name)
            if names_too_long([called]):
                why = "no name has a NUL" if "\0" in name else f"{len(called.encode())} bytes, and {most_letters()} are the most"
                yield in_the_way("name", f"no {what if what == 'file' else 'folder of a site'} can be called {plain(name)}: {why}", name=name)
