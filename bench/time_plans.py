#!/usr/bin/env python3
"""Times `laneplan build` and `laneplan check` on the largest racks: time_plans.py [RUNS].

Prints for each the milliseconds of processor time of one run, the least of so many runs (50 unless told), and the
millions of instructions, counted by `valgrind --tool=callgrind` where there is one."""

import os
import re
import resource
import shutil
import subprocess
import sys
import tempfile

import racks

HERE = os.path.dirname(os.path.abspath(__file__))
PROGRAM = os.path.join(HERE, '..', 'crates', 'laneplan', 'out', 'laneplan')


def processor_time(words):
    """Seconds of processor time that one run takes."""
    before = resource.getrusage(resource.RUSAGE_CHILDREN)
    subprocess.run(words, check=True, stdout=subprocess.DEVNULL)
    after = resource.getrusage(resource.RUSAGE_CHILDREN)
    return after.ru_utime + after.ru_stime - before.ru_utime - before.ru_stime


def instructions(words, folder):
    """Instructions of one run; none without valgrind."""
    if shutil.which('valgrind') is None:
        return None
    out = os.path.join(folder, 'callgrind.out')
    run = subprocess.run(
        ['valgrind', '--tool=callgrind', '--callgrind-out-file=' + out, *words], check=True, capture_output=True, text=True)
    found = re.search(r'Collected : (\d+)', run.stderr)
    return int(found.group(1)) if found else None


def measure(name, words, runs, folder):
    least = min(processor_time(words) for _ in range(runs))
    count = instructions(words, folder)
    told = 'instructions not counted' if count is None else f'{count / 1e6:9.2f} M instructions'
    print(f'{name:18} {1000 * least:8.2f} ms  {told}', flush=True)


def main(runs):
    with tempfile.TemporaryDirectory() as folder:
        racks.main(folder)
        for name in racks.RACKS:
            rack = os.path.join(folder, name + '.rack')
            plan = os.path.join(folder, name + '.plan')
            build = [PROGRAM, 'build', rack, '--out', plan]
            print(f'{name}: ' + subprocess.run(build, check=True, capture_output=True, text=True).stdout.replace('\n', ', ').rstrip(', '))
            measure(name + ' build', build, runs, folder)
            measure(name + ' check', [PROGRAM, 'check', rack, plan], runs, folder)


if __name__ == '__main__':
    main(int(sys.argv[1]) if len(sys.argv) > 1 else 50)
