"""How often each policy meets a failure, as a table."""

import sys

from exploring.runs import count_choices, priorities
from exploring.side_by_side import Progress, in_turn, pool_of


def rates(options, program):
    choices, pool = count_choices(program), pool_of(options, program)
    policies = [("seed", lambda seed: f"seed:{seed}")]
    policies += [
        (f"pct, depth {depth}", lambda seed, depth=depth: priorities(seed, depth, choices))
        for depth in range(1, options.depths + 1)
    ]
    print(
        f"{options.count} runs a policy, {choices} choices in order\n\n| Policy | Runs that fail | First | Seconds until then | Runs a second |\n|---|---:|---:|---:|---:|"
    )
    for name, policy in policies:
        progress, first, seconds = Progress(options, options.count), None, None
        for seed, run in in_turn(pool, policy, range(1, options.count + 1)):
            progress.add(run)
            if run.fails() and first is None:
                first, seconds = seed, progress.seconds()
        progress.end()
        print(
            f"| {name} | {progress.failed} | {first or ''} | {'' if first is None else f'{seconds:.2f}'} | {progress.rate():.0f} |"
        )
        sys.stdout.flush()
    pool.close()
    return 0
