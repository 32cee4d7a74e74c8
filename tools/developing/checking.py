"""`tools/dev check`: runs check_docs and the tests of the tools, and prints a line for each."""
import os
import subprocess
import time

from commands import COMMANDS

# What each test needs of built programs: nothing; a program, if one is given; a program; a program and job_graph.
NOTHING, ANY, PROGRAM, BOTH = range(4)
# `try_script` takes both programs or none.
TESTS = {
    "check_docs": NOTHING,
    "answer_tests": ANY,
    "try_script": ANY,
    "explained": PROGRAM,
    "pictured": BOTH,
    "parsec_tests": PROGRAM,
    "parsec_faults": BOTH,
    "parsec_page": BOTH,
    "sweep_tests": PROGRAM,
}
NO_GRAPH = "it needs job_graph, which `tools/build job_graph` builds"


def run_test(name, words, environment):
    """Runs a test and prints its line, and all that it printed if it failed. Returns whether it passed."""
    begun = time.monotonic()
    how = {"stdin": subprocess.DEVNULL, "stdout": subprocess.PIPE, "stderr": subprocess.STDOUT, "text": True, "errors": "replace"}
    ran = subprocess.run([COMMANDS[name].path(), *words], env=environment, check=False, **how)
    lines = ran.stdout.rstrip("\n").split("\n")
    took = f"{time.monotonic() - begun:.0f} s"
    if ran.returncode:
        print(f"{name}: failed with status {ran.returncode}, {took}", *(f"    {it}" for it in lines), sep="\n", flush=True)
        return False
    print(f"{name}: passed, {took}: {lines[-1].removeprefix(f'{name}: ')}", flush=True)
    return True


def check(program, graph):
    """Runs all tests that these programs allow. Returns the status: 1 if one failed."""
    environment = {**os.environ, "PTG_JOB_GRAPH": graph} if graph else None
    failed, left_out = [], []
    for name, needs in TESTS.items():
        if needs in (PROGRAM, BOTH) and not program:
            left_out.append(name)
            continue
        if program and not graph and (needs == BOTH or name == "try_script"):
            print(f"{name}: failed, {NO_GRAPH}", flush=True)
            failed.append(name)
            continue
        words = [program] if program and needs != NOTHING else []
        if not run_test(name, words + [graph] * (bool(program) and name == "try_script"), environment):
            failed.append(name)
    if left_out:
        print(f"left out without --program: {', '.join(left_out)}")
    return 1 if failed else 0
