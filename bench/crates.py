"""Which crates the instructions of a run are in, by callgrind. A function's own instructions count for the crate that its name begins with."""
import collections
import os
import re
import subprocess
import tempfile

from jobs import TOP

# What is not in a crate, by how its names begin.
OF_C = {
    "malloc, free": ("malloc", "free", "calloc", "realloc", "posix_memalign", "aligned_alloc", "_int_", "_mid_", "tcache", "unlink_chunk", "sysmalloc", "arena", "ptmalloc"),
    "memcpy, memset": ("__mem", "mem"),
}
REST = "the rest of C"
# The largest parts, of which each gets a row; the others are one.
MOST_ROWS = 16
# A function by its number; the first time with its name, and then it may be one that is only called (`cfn`).
NAME = re.compile(r"(c?)fn=\((\d+)\)(?: (.*))?")
# What crates do in a run, for the tables.
DOES = {
    "body_eval": "runs bodies",
    "dep_iter": "walks the edges and write-backs of a task",
    "dep_shard": "keeps the entries of a shard: look-up, arrivals, ready tasks",
    "dep_table": "takes turns at shards, counts what is live",
    "goal_count": "counts the edges into a task",
    "ptg_base": "tasks, tiles, numbers",
    "range_space": "locals, ranges",
    "ready_deques": "the deques of ready tasks",
    "run_answer": "the answer",
    "shard_answer": "the answer",
    "shard_calls": "the shard of a task, what a shard takes in",
    "table_rule": "steps on the words of the table",
    "task_run": "gathers the tiles of a task, starts its body",
    "term_core": "evaluates expressions",
    "tile_pool": "tiles that are used again",
    "work_board": "what a worker asks of a table",
    "worker_core": "looks for tasks, sends along their edges",
    "core": "std: slices, numbers",
    "alloc": "std: vectors, boxes",
    "std": "std",
    "indexmap": "the tables of the shards",
    "hashbrown": "the tables of the shards",
}


def costs(lines):
    """The instructions of each function itself, by its name."""
    names, found, current, is_call = {}, collections.Counter(), "", False
    for line in lines:
        at = NAME.match(line)
        if at:
            called, number, name = at.groups()
            names.setdefault(number, name or "")
            current = current if called else names[number]
        elif line.startswith("calls="):
            is_call = True
        elif line[:1].isdigit() or line[:1] in "+-*":
            # (after `calls=` come the instructions of the called function)
            if not is_call:
                found[current] += int(line.split()[1])
            is_call = False
    return found


def crate_of(name):
    """The crate of a function, or what else it is part of."""
    name = name.lstrip("+<&")
    if "::" in name:
        return name.split("::")[0]
    return next((part for part, begins in OF_C.items() if name.startswith(begins)), REST)


def of_command(words):
    """The instructions of a command by crate."""
    with tempfile.TemporaryDirectory() as folder:
        path = os.path.join(folder, "out")
        valgrind = ["valgrind", "--tool=callgrind", f"--callgrind-out-file={path}"]
        subprocess.run([*valgrind, *words], stdin=subprocess.DEVNULL, capture_output=True, check=False)
        with open(path, encoding="utf-8", errors="replace") as file:
            found = costs(file)
    by_crate = collections.Counter()
    for name, count in found.items():
        by_crate[crate_of(name)] += count
    return by_crate


def of_job(program, files, verb="run"):
    """The instructions of a run less those of a check, by crate."""
    check = of_command([program, "check", *files])
    if verb == "check":
        return check
    run = of_command([program, verb, *files, "--workers", "1"])
    run.subtract(check)
    return run


def own_crates():
    with open(os.path.join(TOP, "crates.txt"), encoding="utf-8") as lines:
        return {line.split("#")[0].split(":")[0].strip() for line in lines}


def rows_of(counts):
    """The rows of a table: what each part is, what it does, and its number for each job. `counts` has the instructions a task by crate for each job."""
    own = own_crates()
    total = collections.Counter()
    for it in counts:
        total.update(it)
    first = [name for name, _ in total.most_common(MOST_ROWS)]
    rows = [[f"`{name}`" if name in own else name, DOES.get(name, ""), *(f"{it.get(name, 0):,.0f}" for it in counts)] for name in first]
    rest = [sum(count for name, count in it.items() if name not in first) for it in counts]
    return rows + [["all else", "", *(f"{it:,.0f}" for it in rest)], ["all", "", *(f"{sum(it.values()):,.0f}" for it in counts)]]
