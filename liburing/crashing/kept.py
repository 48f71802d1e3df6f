"""Keeps a failing crash as a folder: what is left, the log, what had been printed, and a script that asks the check again, which runs nothing else."""

import itertools
import os
import shlex
import stat

from crashing.runs import copy_folder
from exploring.keeping import keep_libraries, kept_program


def keep(options, crasher, image, printed, logs, text):
    """The folder's path. An image that is kept is never written over."""
    folder = next(
        it
        for number in itertools.count(1)
        if not os.path.exists(it := f"{options.keep}/crash-{number}")
    )
    os.makedirs(folder)
    crasher.room.bring(image)
    copy_folder(crasher.room.folder, f"{folder}/image")
    names = ["log"] if len(logs) == 1 else [f"log.{it + 1}" for it in range(len(logs))]
    for name, data in (("printed", printed), ("told", text), *zip(names, logs)):
        with open(f"{folder}/{name}", "wb") as file:
            file.write(data)
    write_replay(options, folder)
    return folder


def write_replay(options, folder):
    word = options.check[0]
    program = kept_program(folder, word) if "/" in word else shlex.quote(word)
    words, libraries = ["-u", "LD_PRELOAD", 'DISK="$room/image"'], keep_libraries(folder)
    if libraries:
        words.append(f'LD_LIBRARY_PATH="$here/libraries":{shlex.quote(libraries)}')
    lines = [
        "#!/bin/sh",
        "# Asks the check of `explore crash` again what it says of an image: the program isn't run.",
        'here=$(cd "$(dirname "$0")" && pwd)',
        "room=$(mktemp -d) || exit",
        "trap 'rm -rf \"$room\"' EXIT",
        'cp -a "$here/image" "$room" && cd "$room/image" || exit',
        f'env {" ".join(words)} {" ".join([program, *map(shlex.quote, options.check[1:])])} < "$here/printed"',
    ]
    path = f"{folder}/replay"
    with open(path, "w", errors="surrogateescape") as file:
        file.write("\n".join(lines) + "\n")
    os.chmod(path, os.stat(path).st_mode | stat.S_IXUSR | stat.S_IXGRP | stat.S_IXOTH)
