"""A trace, read as docs/language.md says under 'Traces'."""
import re

from programs import NoPicture, bytes_of

FIRST = re.compile(rb"trace,(0|[1-9][0-9]{0,6})")
LINE = re.compile(rb"ran,[A-Za-z_][A-Za-z0-9_]*(,(0|-?[1-9][0-9]*))*")


def trace_of(path):
    """The tasks of a trace in their order."""
    lines = bytes_of(path).split(b"\n")
    first = FIRST.fullmatch(lines[0])
    if not first:
        raise NoPicture(f"{path}:1: a trace begins with a line `trace,N`")
    count = int(first[1])
    for number, line in enumerate(lines[1 : count + 1], 2):
        if not LINE.fullmatch(line):
            raise NoPicture(f"{path}:{number}: it is no line `ran,CLASS,parameters`")
    if len(lines) != count + 2 or lines[-1]:
        raise NoPicture(f"{path}: its first line says that {count} lines follow, and there are {len(lines) - 1 - (lines[-1] == b'')}")
    return [tuple(line.decode().split(",")[1:]) for line in lines[1 : count + 1]]
