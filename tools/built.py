"""What a built program was made from: noted by tools/build, and looked at by those who only want to know whether it still stands so."""
import hashlib
import os
import time

TOP = os.path.dirname(os.path.dirname(os.path.realpath(__file__)))
# The file in a crate's out/ that says from which sources, as which file and with which kit the program was built.
VERSION = "version"
# The file at the top of an installation: where it came from, and then each file of it.
INSTALLED = "installed"
SOURCES = (".rt", ".antt")


def program_of(name, top=TOP):
    return os.path.join(top, "crates", name, "out", name)


def crates_below(name, top=TOP):
    """The crate of a program and the repository's crates that it stands on."""
    uses = {}
    with open(os.path.join(top, "crates.txt"), encoding="utf-8") as lines:
        for line in lines:
            crate, _, libraries = line.split("#")[0].partition(":")
            if crate.strip():
                uses[crate.split()[0]] = libraries.split()
    found = [name]
    for crate in found:
        found += [it for it in uses.get(crate, []) if it in uses and it not in found]
    return found


def sources(name, top=TOP):
    """The files that a program is made from, by their paths from the top."""
    found = ["crates.txt"]
    for crate in crates_below(name, top):
        for at, folders, names in os.walk(os.path.join(top, "crates", crate)):
            folders[:] = [it for it in folders if it != "out"]
            found += [os.path.relpath(os.path.join(at, it), top) for it in names if it.endswith(SOURCES)]
    return sorted(found)


def sum_of_file(path):
    with open(path, "rb") as file:
        return hashlib.sha256(file.read()).hexdigest()


def sum_of_sources(name, top=TOP):
    """A sum of all that a program is made from, the same in each checkout of the same files."""
    both = [(path, sum_of_file(os.path.join(top, path))) for path in sources(name, top)]
    return hashlib.sha256(repr(both).encode()).hexdigest()


def note(name, made_from, kit, top=TOP):
    """Notes that a program was proved and built from sources with this sum, with this kit."""
    lines = {"sources": made_from, "program": sum_of_file(program_of(name, top)), "kit": kit, "date": time.strftime("%Y-%m-%d", time.gmtime())}
    with open(os.path.join(top, "crates", name, "out", VERSION), "w", encoding="utf-8") as file:
        file.writelines(f"{key} {value}\n" for key, value in lines.items())


def noted(name, top=TOP):
    """What was noted of a program, by the words sources, program, kit and date; empty where nothing was."""
    try:
        with open(os.path.join(top, "crates", name, "out", VERSION), encoding="utf-8") as file:
            pairs = dict(line.rstrip("\n").split(" ", 1) for line in file)
    except (OSError, ValueError):
        return {}
    return pairs if {"sources", "program", "kit", "date"} <= set(pairs) else {}


def is_installed(top=TOP):
    return os.path.isfile(os.path.join(top, INSTALLED))


def installed_from(top=TOP):
    with open(os.path.join(top, INSTALLED), encoding="utf-8") as file:
        return file.readline().rstrip("\n").removeprefix("from ")


def kit_spelled(kit):
    """The kit's line as README.md spells it."""
    name, _, logic = kit.partition(" logic ")
    return f"{name} (logic {logic})" if logic else name


def is_newer(name, top=TOP):
    """Whether a program is newer than all that it is made from."""
    made = os.path.getmtime(program_of(name, top))
    return all(os.path.getmtime(os.path.join(top, it)) <= made for it in sources(name, top))


def is_fresh(name, top=TOP):
    """Whether a program is there and made from the sources as they are: it is newer than them, or their sum is the one that was noted."""
    if not os.access(program_of(name, top), os.X_OK):
        return False
    return is_installed(top) or is_newer(name, top) or noted(name, top).get("sources") == sum_of_sources(name, top)
