"""The words of `explore`: its commands, each with its options, and the program that it runs."""

import argparse
import os
import sys


def add_program(it):
    it.add_argument(
        "--seconds", type=float, default=60, metavar="N", help="a run that takes longer fails (60)"
    )
    it.add_argument(
        "--ends",
        action="store_true",
        help="issuing and finishing a request are one choice, not two",
    )
    it.add_argument(
        "--here",
        action="store_true",
        help="runs share this folder, and find what others leave there; else each has an empty one of its own",
    )
    it.add_argument(
        "--start",
        choices=["auto", "ring", "main", "new"],
        default="auto",
        help="where runs begin: by a fork at the first set-up of a ring, by a fork before main, or as a new process each; auto: before main, where that is sound",
    )


def add_timeouts(it):
    it.add_argument(
        "--timeouts",
        type=positive,
        metavar="N",
        help="time may pass before anything else goes on, so that a timeout or the limit of a wait is over: a choice, taken at most N times in a run",
    )


def add_words(it):
    it.add_argument(
        "words",
        nargs=argparse.REMAINDER,
        metavar="PROGRAM..",
        help="the program with its words; options of explore stand before it",
    )


def add_policy(it):
    it.add_argument(
        "--policy",
        choices=["both", "seed", "pct"],
        default="both",
        help="how a seed chooses: each choice rolled, by priorities, or (both) the one for odd seeds and the other for even ones",
    )


def add_many(it):
    it.add_argument(
        "--jobs",
        type=positive,
        default=len(os.sched_getaffinity(0)),
        metavar="N",
        help="so many runs at once (as many as there are processors)",
    )
    it.add_argument(
        "--cluster",
        metavar="tcp://HOST:PORT",
        help="the runs are made by the workers of this scheduler of Dask's, and --jobs means nothing",
    )
    it.add_argument("--json", metavar="FILE", help="write there what was found")
    it.add_argument(
        "--time", type=float, metavar="SECONDS", help="begin no run after so many seconds"
    )
    it.add_argument(
        "--progress",
        action="store_true",
        help="say each second how far it is, though standard error is no terminal",
    )


def add_coverage(it):
    it.add_argument(
        "--coverage",
        action="store_true",
        help="print which rules of the core were met, and how often",
    )


def add_page(it):
    it.add_argument(
        "--page",
        metavar="FILE",
        help="write there one page of HTML that draws the run beside one that passes; it takes the program uring",
    )
    it.add_argument("--json", metavar="FILE", help="write there the data of that page")


def add_found(it, more=""):
    """What `seeds` and `crash` write of failures."""
    it.add_argument(
        "--junit",
        metavar="FILE",
        help="write there what was found as JUnit's XML: a test for each kind of failure, with one example",
    )
    it.add_argument(
        "--shorten",
        type=float,
        default=60,
        metavar="SECONDS",
        help=f"make failures short for so many seconds{more} (60)",
    )


def add_crash(it):
    it.add_argument(
        "--disk",
        metavar="FOLDER",
        help="what the program's folder holds when a run begins; it is copied (an empty one)",
    )
    it.add_argument(
        "--fs",
        "--names",
        dest="names",
        type=file_system,
        default="any",
        metavar="any|ext4|xfs|btrfs",
        help="what a crash leaves of names, lengths and files that are cut: what any file system may, or what this one does; ext4:1024 has blocks of 1024 bytes, and --names ordered is --fs ext4 (any)",
    )
    it.add_argument(
        "--apart",
        action="store_true",
        help="the two names of a rename change each by itself, and so do the bytes and the length of a file that is cut",
    )
    it.add_argument(
        "--threads",
        action="store_true",
        help="the program's threads take turns, as by uring-run --threads, and a run's files are the same as often as its choices are",
    )
    it.add_argument(
        "--unit", type=positive, default=1, metavar="N", help="so many bytes are left together (1)"
    )
    it.add_argument(
        "--fsync-fails",
        type=positive,
        metavar="N",
        help="the Nth sync of each process fails with EIO, counted from the process's own start",
    )
    it.add_argument(
        "--status",
        type=int,
        default=0,
        metavar="N",
        help="the status with which the program is to end: a run with another one fails; less than 0 is a signal (0)",
    )
    it.add_argument(
        "--depth",
        type=positive,
        default=1,
        metavar="N",
        help="with a RECOVER: at most so many crashes of what recovers, one after the other (1)",
    )
    it.add_argument(
        "--crashes", type=positive, default=1000, metavar="N", help="so many crashes (1000)"
    )
    it.add_argument(
        "--each",
        type=positive,
        metavar="N",
        help="so many of a run, where runs differ, and of one of RECOVER (20)",
    )
    it.add_argument("--first", type=positive, default=1, metavar="N", help="the first seed (1)")
    it.add_argument(
        "--all",
        action="store_true",
        help="every image at every moment, where there are at most --most of them",
    )
    it.add_argument("--most", type=positive, default=1000, metavar="N", help="see --all (1000)")
    it.add_argument("--list", metavar="LIST", help="the one run by these choices")
    it.add_argument(
        "--at",
        metavar="N",
        help="the one crash after so many events, printed; with a RECOVER N/N.. is one crash after the other, and --list and --lose have as many parts",
    )
    it.add_argument(
        "--lose",
        default="",
        metavar="N,N..",
        help="of that crash: the operations that are lost, or least, most or seed:N",
    )
    it.add_argument(
        "--keep-going",
        action="store_true",
        help="make all crashes, count those that fail, and tell each kind of failure once",
    )
    it.add_argument(
        "--keep",
        metavar="FOLDER",
        help="keep each failing crash that is told there, as a folder with its image, the log and a script that asks the check again",
    )
    it.add_argument(
        "--seconds",
        type=float,
        default=60,
        metavar="N",
        help="a run or a check that takes longer fails (60)",
    )
    it.add_argument(
        "--ends",
        action="store_true",
        help="issuing and finishing a request are one choice, not two",
    )
    it.add_argument(
        "--jobs",
        type=positive,
        default=len(os.sched_getaffinity(0)),
        metavar="N",
        help="so many at once (as many as there are processors)",
    )
    it.add_argument(
        "--time", type=float, metavar="SECONDS", help="begin nothing after so many seconds"
    )
    add_found(it)
    it.add_argument(
        "--page",
        metavar="FILE",
        help="write there one page of HTML that draws the crash that is told, with what is lost",
    )
    it.add_argument(
        "--json", metavar="FILE", help="write there what was found, and the data of that page"
    )


def file_system(word):
    from crashing.filesystems import RULES

    name, _, block = word.partition(":")
    if name not in RULES or (block and not (block.isdecimal() and int(block) >= 512)):
        raise argparse.ArgumentTypeError(
            "any, ext4, xfs or btrfs is wanted, with the size of its blocks after a colon where that isn't the usual one"
        )
    return word


def positive(word):
    number = int(word)
    if number < 1:
        raise argparse.ArgumentTypeError("a number from 1 on is wanted")
    return number


def add_runs(command):
    """The commands that run a program."""
    it = command("seeds", add_program, add_timeouts, add_policy, add_many, add_coverage)
    it.add_argument("--first", type=int, default=1, metavar="N", help="the first seed (1)")
    it.add_argument(
        "--count", type=positive, default=1000, metavar="N", help="how many seeds (1000)"
    )
    it.add_argument(
        "--keep-going", action="store_true", help="run all seeds, and count those that fail"
    )
    it.add_argument(
        "--keep",
        metavar="FOLDER",
        help="keep each failing run there, as a folder with a script that replays it",
    )
    add_found(it, ", for --json and --junit")
    add_words(it)
    it = command("shrink", add_program, add_timeouts, add_policy, add_page)
    it.add_argument(
        "seed", metavar="SEED", help="a seed as `seeds` tells it, or a policy as seed:7 or pct:7:2"
    )
    add_words(it)
    it = command("show", add_program, add_timeouts, add_page)
    it.add_argument("list", metavar="LIST", help="choices as 3=1,7=2, or a policy")
    add_words(it)
    it = command("all", add_program, add_timeouts, add_many, add_coverage)
    it.add_argument(
        "--most", type=positive, default=100000, metavar="N", help="at most so many runs (100000)"
    )
    it.add_argument(
        "--whole",
        action="store_true",
        help="also the orders that differ from others only by what commutes",
    )
    it.add_argument(
        "--turns",
        type=int,
        metavar="K",
        help="of a program whose threads take turns (uring-run --threads): all orders in which at most K turns aren't way 0",
    )
    it.add_argument("--outputs", action="store_true", help="print the different outputs")
    it.add_argument(
        "--left",
        metavar="FILE",
        help="begin with the lists that an earlier call left there, and leave there what is left",
    )
    add_words(it)
    it = command("rates", add_program, add_timeouts, add_many)
    it.add_argument(
        "--count", type=positive, default=300, metavar="N", help="so many runs of each policy (300)"
    )
    it.add_argument(
        "--depths", type=positive, default=4, metavar="N", help="priorities of depths 1 to N (4)"
    )
    add_words(it)
    it = command("crash", add_crash, add_policy)
    add_words(it)


def add_rest(command):
    """Those that take what runs have left."""
    command("merge", add_coverage).add_argument("summaries", nargs="+", metavar="JSON")
    command("compare").add_argument("traces", nargs="*", metavar="TRACE")
    command("judge").add_argument("traces", nargs="*", metavar="TRACE")
    it = command("split")
    it.add_argument("--judge", action="store_true")
    it.add_argument("folder", metavar="FOLDER")
    it.add_argument("traces", nargs="*", metavar="TRACE")


def read_words(help):
    """The options of the command line, of which `command` is the command's name. The help begins so."""
    parser = argparse.ArgumentParser(
        description=help, formatter_class=argparse.RawDescriptionHelpFormatter
    )
    commands = parser.add_subparsers(required=True, dest="command")

    def command(name, *adders):
        it = commands.add_parser(name)
        it.set_defaults(
            words=None,
            seconds=60,
            ends=False,
            here=False,
            start="auto",
            timeouts=None,
        )
        for add in adders:
            add(it)
        return it

    add_runs(command)
    add_rest(command)
    options = parser.parse_args()
    look_at(parser, options)
    return options


def look_at(parser, options):
    """A program is wanted where a command runs one, and its own words are told apart from those of explore."""
    if options.words is None:
        options.words = []
        return
    if options.words[:1] == ["--"]:
        options.words = options.words[1:]
    if not options.words:
        given = getattr(options, "seed", None)
        if given and os.path.exists(given):
            parser.error(
                f"{given} stands where the seed is wanted: {options.command} SEED PROGRAM.."
            )
        parser.error("a program is missing")
    if options.words[0].startswith("-"):
        parser.error(
            f"{options.words[0]} stands where the program is wanted: options go before the seed, the list and the program"
        )
    for word in options.words[1:]:
        if word.startswith("--") and word[2:].replace("-", "_") in vars(options):
            print(
                f"explore: {word} stands after the program, and so is the program's",
                file=sys.stderr,
            )
