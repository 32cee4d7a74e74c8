"""What stands here, by the files that a build or an installation wrote, and whether it is proved."""
import os

import built

NAME = "ptg"


def why_unproved(top):
    """Why the program that stands here is not known to be proved, or None where it is."""
    noted = built.noted(NAME, top)
    program = built.program_of(NAME, top)
    if not os.access(program, os.X_OK):
        return "it is not built yet; the first command of a verb proves and builds it"
    if not noted:
        said = f"no file says with which kit {program} was proved"
        return said if built.is_installed(top) else f"{said}; {os.path.join(top, 'tools', 'build')} {NAME} finds out"
    if noted.get("program") != built.sum_of_file(program):
        return f"{program} is another file than the one that was built"
    if not built.is_installed(top) and noted.get("sources") != built.sum_of_sources(NAME, top):
        return "its sources have changed since; the next command of a verb proves and builds it anew"
    return None


def version_of(noted, top):
    """The version: the first digits of the sum of the sources that the program was built from."""
    if not os.access(built.program_of(NAME, top), os.X_OK):
        return "(not built)"
    return noted["sources"][:12] if noted else "(from sources that were not noted)"


def lines(top):
    """The lines of --version."""
    noted, why = built.noted(NAME, top), why_unproved(top)
    where = f"installed from {built.installed_from(top)}" if built.is_installed(top) else f"in the checkout {top}"
    first = f"{NAME} {version_of(noted, top)}, {where}"
    if why:
        return [first, f"proved: no: {why}"]
    return [first, f"proved: yes, with {built.kit_spelled(noted['kit'])}, on {noted['date']}"]
