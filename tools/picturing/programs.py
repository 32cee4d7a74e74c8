"""The programs that a picture asks: `job_graph` for the edges of a job, `ptg` for what becomes of it. Nothing is built here."""
import os
import subprocess
import threading

import graph

MOST_SECONDS = 120
# What the statuses of both programs mean.
WHY = {
    2: "the JDF is refused",
    3: "the data are refused",
    4: "the job is inconsistent",
    5: "some task traps",
    6: "the job stalls",
    7: "a file can't be read",
    9: "there is no memory",
}


class NoPicture(Exception):
    """Why there is nothing to draw, as a sentence for a person."""


def see_file(path):
    """Refuses what is no readable file."""
    if not os.path.exists(path):
        raise NoPicture(f"{path}: there is no such file")
    if not os.path.isfile(path):
        raise NoPicture(f"{path}: it is no plain file, and a picture may read it more than once")
    if not os.access(path, os.R_OK):
        raise NoPicture(f"{path}: it can't be read: permission denied")


def bytes_of(path):
    see_file(path)
    with open(path, "rb") as file:
        return file.read()


class Job:
    """The files of a job, with the programs that know it."""

    def __init__(self, program, jdf, data):
        self.program, self.jdf, self.data = program, jdf, data
        see_file(jdf)
        see_file(data)

    def title(self):
        return os.path.basename(self.jdf)

    def command(self, verb):
        return f"./ptg {verb} {self.jdf} {self.data}"

    def graph_program(self):
        """The program `job_graph`."""
        named = os.environ.get("PTG_JOB_GRAPH")
        if named and not (os.path.isfile(named) and os.access(named, os.X_OK)):
            raise NoPicture(f"PTG_JOB_GRAPH names {named}, which is no program that can be run")
        found = graph.program()
        if found is None:
            raise NoPicture(graph.missing())
        return found

    def graph_lines(self, most):
        """The lines of `job_graph` for the whole job, at most this many, each as bytes with its end."""
        yield from self.lines_of([self.graph_program(), self.jdf, self.data, str(most)])

    def ptg_lines(self, verb, *more):
        """The lines that a verb of `ptg` prints."""
        if not (os.path.isfile(self.program) and os.access(self.program, os.X_OK)):
            raise NoPicture(f"the program {self.program} is not there: ./ptg builds it, and --program names another one")
        yield from self.lines_of([self.program, verb, self.jdf, self.data, *more])

    def lines_of(self, words):
        """The lines that a program prints, which must end with status 0."""
        try:
            ran = subprocess.Popen(words, stdin=subprocess.DEVNULL, stdout=subprocess.PIPE, stderr=subprocess.DEVNULL)
        except OSError as error:
            raise NoPicture(f"{words[0]}: {error.strerror}") from error
        first = b""
        timer = threading.Timer(MOST_SECONDS, ran.kill)
        timer.start()
        try:
            for line in ran.stdout:
                first = first or line
                yield line
            status = ran.wait()
        finally:
            in_time = timer.is_alive()
            timer.cancel()
            ran.kill()
            ran.stdout.close()
            ran.wait()
        if status:
            raise NoPicture(self.why(status, first, words[1]) if in_time else f"{words[0]} took more than {MOST_SECONDS} s")

    def why(self, status, first, verb):
        """Why a program ended with a status other than 0."""
        if status not in WHY:
            return f"{self.jdf}: the program ended with status {status}"
        said = first.decode("utf-8", "replace").strip() or self.first_of_check()
        said = f" ({said})" if said else ""
        verb = verb if status in (5, 6) else "check"
        return f"{self.data if status == 3 else self.jdf}: {WHY[status]}{said}: {self.command(verb)} says more"

    def first_of_check(self):
        """The first line of `ptg check`, where there is such a program."""
        if not os.access(self.program, os.X_OK):
            return ""
        ran = subprocess.run([self.program, "check", self.jdf, self.data], stdin=subprocess.DEVNULL, stdout=subprocess.PIPE, check=False)
        return ran.stdout.decode("utf-8", "replace").split("\n")[0] if ran.returncode else ""
