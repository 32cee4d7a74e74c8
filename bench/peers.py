"""The programs that are measured beside `ptg`: how each is built, and the Debian packages that it needs."""
import os
import subprocess
from dataclasses import dataclass

FOLDER = os.path.dirname(os.path.realpath(__file__))
OUT = os.path.join(FOLDER, "out")


@dataclass
class Peer:
    name: str
    source: str
    # the compiler with its options; those that begin with ` are the words that a command prints
    command: list
    packages: str
    about: str


MEASURE = Peer("measure", "measure.c", ["gcc"], "gcc", "runs a command and tells its time and its memory")
PEERS = [
    Peer("loops", "loops.c", ["gcc"], "gcc", "plain loops in a right order, on one thread: the floor"),
    Peer("omp-gnu", "omp.c", ["gcc", "-fopenmp"], "gcc", "OpenMP tasks of GNU's libgomp, tiles shared"),
    Peer("omp-llvm", "omp.c", ["clang", "-fopenmp"], "clang libomp-dev", "OpenMP tasks of LLVM's libomp, tiles shared"),
    Peer("starpu", "starpu.c", ["gcc", "`pkg-config --cflags --libs starpu-1.3"], "gcc pkg-config libstarpu-dev", "StarPU, tiles shared"),
    Peer("tbb", "tbb.cpp", ["g++", "-std=c++17", "-ltbb"], "g++ libtbb-dev", "oneTBB, edges computed as they are needed, tiles shared"),
    Peer("tbb-copy", "tbb.cpp", ["g++", "-std=c++17", "-DCOPY", "-ltbb"], "g++ libtbb-dev", "oneTBB, the same with a hash table and a copy for each edge, as ptg"),
]


def path_of(peer):
    return os.path.join(OUT, peer.name)


def is_new(peer):
    """Whether a program is newer than all files of this folder."""
    if not os.access(path_of(peer), os.X_OK):
        return False
    files = [os.path.join(FOLDER, it) for it in os.listdir(FOLDER) if it.endswith((".c", ".cpp", ".h", ".py"))]
    return all(os.path.getmtime(it) <= os.path.getmtime(path_of(peer)) for it in files)


def why_not_built(peer):
    """Builds a program where that is needed. Returns why it is not there, or nothing."""
    if is_new(peer):
        return ""
    os.makedirs(OUT, exist_ok=True)
    try:
        words = []
        for it in peer.command:
            words += subprocess.run(it[1:].split(), capture_output=True, text=True, check=True).stdout.split() if it.startswith("`") else [it]
        # (libraries come after the source that uses them)
        first = [it for it in words if not it.startswith("-l")]
        last = [it for it in words if it.startswith("-l")]
        command = [*first, "-O2", "-Wall", "-Wextra", os.path.join(FOLDER, peer.source), "-o", path_of(peer), *last]
        ran = subprocess.run(command, capture_output=True, text=True, check=False)
        if ran.returncode == 0:
            return ""
        why = next((line for line in ran.stderr.splitlines() if "error" in line), "it does not compile")
    except FileNotFoundError as error:
        why = f"there is no {error.filename}"
    except subprocess.CalledProcessError:
        why = "pkg-config does not know its library"
    return f"{peer.name} is left out ({why}). It needs: apt-get install {peer.packages}"
