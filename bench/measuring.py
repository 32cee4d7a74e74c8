"""Measures jobs with `ptg` and its peers: rounds of runs, counts of instructions, and what the machine is."""
import os
import subprocess
import sys
import time

from jobs import LONG_BODY, all_jobs
from peers import PEERS, path_of, why_not_built
from runs import Instructions, run_peer, run_ptg, turns_of

# The jobs whose instructions are counted: those whose runs are short under callgrind, which is some 50 times as slow.
COUNTED = ("Cholesky 40", "Cholesky 12", "chain, 1 number", "fan of 20,000", "fan of 500")
# A load of the machine over which no figure counts.
BUSY = 0.5
# How many seconds all processors work before anything is measured: after a rest some of them are twice as fast for a while.
WARM_UP = 40


def say(text):
    print(text, file=sys.stderr, flush=True)


def warm_up(seconds=WARM_UP):
    """Has all processors work, so that none is faster at first than later on."""
    say(f"all processors work for {seconds} s first")
    spin = f"import time; end = time.monotonic() + {seconds}\nwhile time.monotonic() < end: pass"
    for it in [subprocess.Popen([sys.executable, "-c", spin]) for _ in range(os.cpu_count())]:
        it.wait()


def built_peers(options):
    """The peers that are there, and notes on those that are not."""
    wanted = [it for it in PEERS if not options.peers or it.name in options.peers.split(",")]
    why = {it.name: why_not_built(it) for it in wanted}
    return [it for it in wanted if not why[it.name]], [it for it in why.values() if it]


def one_round(options, jobs, peers, has_ptg, given_up):
    """The rows of a round. What failed once, or took too long, is given up."""
    rows = []

    def add(row):
        rows.append(row)
        if row.fault:
            given_up[row.name, row.job, row.workers] = row.fault

    for job in jobs:
        if has_ptg:
            add(run_ptg(options.program, "check", job, 0, 0))
        for workers in options.workers:
            if has_ptg and ("ptg", job.name, workers) not in given_up:
                add(run_ptg(options.program, "run", job, workers, options.shards))
            for peer in peers:
                if (peer.name, job.name, workers) not in given_up:
                    add(run_peer(peer, job, workers))
    return rows


def counts_of(options, all_of_them, peers, has_ptg, notes):
    """The jobs whose instructions are counted, and the instructions a task by name and job."""
    jobs = [it for it in all_of_them if it.name.startswith(COUNTED) and not it.is_long]
    counter, found = Instructions(), {}
    if counter.way is None:
        notes.append("instructions are not counted: neither perf nor valgrind works here (apt-get install linux-perf valgrind)")
        return jobs, found
    notes.append(f"instructions are counted by {counter.way}")
    for job in jobs:
        say(f"instructions of {job.name}")
        if has_ptg:
            files = job.files()
            check = counter.of([options.program, "check", *files])
            run = counter.of([options.program, "run", *files, "--workers", "1", "--shards", str(options.shards)])
            if check and run:
                found["check", job.name], found["ptg", job.name] = check / job.tasks, (run - check) / job.tasks
        for peer in peers:
            all_of_it = counter.of([path_of(peer), "1", *job.words()])
            least = counter.of([path_of(peer), "1", job.words()[0], "1", *job.words()[2:]])
            if all_of_it and least:
                found[peer.name, job.name] = (all_of_it - least) / job.tasks
    return jobs, found


def machine():
    """A line on the machine."""
    with open("/proc/cpuinfo", encoding="ascii", errors="replace") as file:
        model = next((line.split(":")[1].strip() for line in file if line.startswith("model name")), "an unknown processor")
    return f"{time.strftime('%Y-%m-%d %H:%M')}, {os.cpu_count()} processors, {model}"


def prepared_jobs(options, has_ptg, notes):
    """The jobs, with their files written."""
    jobs = [it for it in all_jobs(options.quick) if not options.only or any(word.lower() in it.name.lower() for word in options.only.split(","))]
    for job in jobs:
        if job.is_long and has_ptg:
            each = turns_of(options.program, job, LONG_BODY)
            notes.append(f"{job.name}: {job.made[2]} turns of a loop for ptg, {each:.1f} ns each")
        elif job.is_long:
            job.made[2] = "1"
        job.write()
    return jobs
