"""Why a file could not be read, why the output could not be written, and what memory there was."""
import difflib
import errno
import os
import resource
import stat

READABLE = "it can be read now"


def why_unread(name):
    """The system's reason why a file can't be read, found by opening it."""
    try:
        if stat.S_ISFIFO(os.stat(name).st_mode):
            return "it is a pipe, which is read only once"
        handle = os.open(name, os.O_RDONLY | os.O_NONBLOCK)
        try:
            os.read(handle, 1)
        finally:
            os.close(handle)
    except OSError as why:
        return os.strerror(why.errno) + (by_another_name(name) if why.errno == errno.ENOENT else "")
    except ValueError:
        return "a name of a file has no zero byte"
    return READABLE


def by_another_name(name):
    """What to write where a path has backslashes, or is nearly the name of another file."""
    if "\\" in name:
        plain = name.replace("\\", "/")
        return f". A path has `/`, not `\\`: write `{plain}`" + ("" if os.path.exists(plain) else ", if there is such a file")
    folder, last = os.path.split(name)
    try:
        found = difflib.get_close_matches(last, os.listdir(folder or "."), 1, 0.7)
    except OSError:
        found = []
    return f". Did you mean `{os.path.join(folder, found[0])}`?" if found and found[0] != last else ""


def output():
    """What standard output is, as far as that says why it can't be written."""
    try:
        mode = os.fstat(1).st_mode
    except OSError:
        return "it is closed"
    if stat.S_ISFIFO(mode):
        return "it is a pipe that nobody reads any more"
    try:
        os.write(1, b"")
        if stat.S_ISREG(mode) and not os.fstatvfs(1).f_bavail:
            return "it is a file on a full file system"
        if stat.S_ISCHR(mode) and os.path.realpath("/proc/self/fd/1") == "/dev/full":
            return os.strerror(errno.ENOSPC)
    except OSError as why:
        return os.strerror(why.errno)
    return f"it is {os.path.realpath('/proc/self/fd/1')}"


def memory():
    """The limits of memory that are in force."""
    names = {"address space (ulimit -v)": resource.RLIMIT_AS, "data (ulimit -d)": resource.RLIMIT_DATA}
    limits = [f"{name} {resource.getrlimit(it)[0]:,} bytes" for name, it in names.items() if resource.getrlimit(it)[0] != resource.RLIM_INFINITY]
    return "Limits in force: " + "; ".join(limits) + "." if limits else "No limit is in force: the machine had no more memory."
