"""Keeps a failing run as a folder that replays it anywhere."""

import os
import shlex
import shutil
import stat

from exploring.runs import PARTS, list_of, new_folder


def keep(folder, program, run):
    """A folder from which the run is replayed by one command, ./replay, also on another machine: the program lies beside it, if it is a file of its own, and so does the layer, if it is a shared library."""
    os.makedirs(folder, exist_ok=True)
    recorded = program.run(run.policy)
    traced = program.run(list_of(recorded.items()), is_tracing=True)
    write_replay(f"{folder}/replay", folder, program, run, traced)
    with open(f"{folder}/output", "wb") as file:
        file.write(run.output)
    with open(f"{folder}/choices", "w") as file:
        file.writelines(f"{at} {way} {count} {what}\n" for at, way, count, what in traced.choices)
    for index, trace in enumerate(traced.traces):
        with open(f"{folder}/trace.{index}", "w") as file:
            file.write(trace)


def write_replay(path, folder, program, run, traced):
    variables = {name: traced.environment[name] for name in ("WULGACH_POLICY", "WULGACH_CHOOSE")}
    variables |= {name: os.environ[name] for name in PARTS if name in os.environ}
    words = [shlex.quote(f"{name}={value}") for name, value in variables.items()]
    libraries = keep_libraries(folder)
    if libraries:
        words.append(f'LD_LIBRARY_PATH="$here/libraries":{shlex.quote(libraries)}')
    words.append(kept_program(folder, program.words[0]))
    if program.is_fresh:
        place = f'cd "$({new_folder()} 2> /dev/null || mktemp -d)" || exit'
    else:
        place = f"cd {shlex.quote(os.getcwd())} 2> /dev/null || true    # (where it ran; it may run elsewhere)"
    with open(path, "w") as file:
        file.write(
            f'#!/bin/sh\n# Replays a run of the layer: {run.policy}, status {run.status}.\nhere=$(cd "$(dirname "$0")" && pwd)\n{place}\nexec env {" ".join(words)} {shlex.join(program.words[1:])}\n'
        )
    os.chmod(path, os.stat(path).st_mode | stat.S_IXUSR | stat.S_IXGRP | stat.S_IXOTH)


def kept_program(folder, name):
    """The program's word in the script: its copy, or where it is, if it is a script, whose other files nobody knows."""
    path = shutil.which(name) or name
    with open(path, "rb") as file:
        if file.read(4) != b"\x7fELF":
            return shlex.quote(os.path.abspath(path))
    os.makedirs(f"{folder}/program", exist_ok=True)
    shutil.copy(path, f"{folder}/program")
    return f'"$here"/program/{shlex.quote(os.path.basename(path))}'


def keep_libraries(folder):
    """Copies the layer that LD_LIBRARY_PATH finds. That variable, or nothing if it finds none."""
    paths = os.environ.get("LD_LIBRARY_PATH", "")
    found = next(
        (path for path in paths.split(":") if path and os.path.exists(f"{path}/liburing.so.2")),
        None,
    )
    if not found:
        return ""
    os.makedirs(f"{folder}/libraries", exist_ok=True)
    shutil.copy(f"{found}/liburing.so.2", f"{folder}/libraries")
    return paths
