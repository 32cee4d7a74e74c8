"""What `ptg certify` prints of a job that is complete: a heaviest chain, and the level of each task."""
import re
from dataclasses import dataclass

from data_text import records_of
from programs import NoPicture, bytes_of

MOST_WEIGHT = 1_000_000
NUMBER = re.compile(rb"[+-]?[0-9]+")


@dataclass
class Certificate:
    # the tasks of the chain in order, what they weigh together, and the level of each task of the job
    chain: list
    weight: int
    levels: dict


def certificate_of(job):
    chain, weight, levels = [], 0, {}
    for line in job.ptg_lines("certify"):
        fields = line.decode().rstrip("\n").split(",")
        if fields[0] == "level":
            levels[tuple(fields[1:-1])] = int(fields[-1])
        elif fields[0] == "link":
            chain.append(tuple(fields[1:]))
        elif fields[0] == "chain":
            weight = int(fields[2])
    if not levels:
        raise NoPicture(f"{job.jdf}: the job has no task")
    return Certificate(chain, weight, levels)


def weights_of(job):
    """The weights that the data give to classes; a class without one weighs 1."""
    found = {}
    for it in records_of(bytes_of(job.data)):
        if it.word() == "int" and len(it.fields) == 3 and it.fields[1].spelled().startswith("weight_"):
            if NUMBER.fullmatch(it.fields[2].text):
                found[it.fields[1].spelled().removeprefix("weight_")] = max(0, min(MOST_WEIGHT, int(it.fields[2].text)))
    return found
