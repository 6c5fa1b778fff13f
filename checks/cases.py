#!/usr/bin/env python3
"""cases.py PROGRAM [FOLDER ..]: tries the cases of checks/cases with a built eve-tpcc, and images and batches that are spoilt at random.

FOLDERs are those of checks/cases, or files in them; `spoilt` stands for the random ones; all by default. checks/cases/README.md describes
the files. Cases run beside each other, as many as there are processors. Prints each comparison that failed, with its case, its step and
the difference, then `N passed, M failed`. Ends with status 1 if any failed."""
import concurrent.futures
import os
import sys
import tempfile
import traceback

import case_files
import case_runs
import case_steps
import case_tables
import case_words
import spoilt

CASES = os.path.join(os.path.dirname(os.path.abspath(__file__)), 'cases')
SPOILT = os.path.join(CASES, 'spoilt')
STEPS = case_steps.STEPS + case_tables.STEPS + case_words.STEPS
# Spoilt texts that are tried one behind the other.
TRIES = 50


def files_of(folder):
    """The files of cases in a folder."""
    if os.path.isfile(folder):
        return [folder]
    return sorted(os.path.join(place, name) for place, _, names in os.walk(folder) for name in names if name.endswith('.cases'))


def told_by(program, case, follow):
    """What each comparison of a case tells: nothing, or what is wrong."""
    with tempfile.TemporaryDirectory() as folder:
        trial = case_steps.Trial(case_runs.Room(program, folder), case)
        try:
            follow(trial)
        except Exception:
            trial.told.append(f'{os.path.relpath(case.path)}:{case.line}: {case.title}\n{traceback.format_exc()}')
        if not trial.told:
            trial.told.append(f'{os.path.relpath(case.path)}:{case.line}: {case.title}\n    it wants nothing')
        return trial.told


def try_spoilt(tries):
    def follow(trial):
        for title, is_image, text, wanted in tries:
            case_tables.try_spoilt(trial, title, is_image, text, wanted)
    return follow


def spoilt_cases():
    image = case_files.read_file(os.path.join(CASES, 'databases', 'all_kinds.csv'))
    tries = [*spoilt.tries(image)]
    for at in range(0, len(tries), TRIES):
        yield case_files.Case('spoilt at random', SPOILT, at), try_spoilt(tries[at:at + TRIES])


def trials(folders):
    """The cases of these folders, and how each is followed."""
    for folder in folders:
        for path in files_of(folder):
            for case in case_files.cases_of(path):
                yield case, lambda trial: trial.follow(STEPS)
        if folder in (CASES, SPOILT):
            yield from spoilt_cases()


def main(program, folders):
    places = [folder if os.path.exists(folder) else os.path.join(CASES, folder) for folder in folders] or [CASES]
    with concurrent.futures.ThreadPoolExecutor(len(os.sched_getaffinity(0))) as pool:
        started = [pool.submit(told_by, program, case, follow) for case, follow in trials(places)]
        told = [fault for trial in started for fault in trial.result()]
    faults = [fault for fault in told if fault]
    for fault in faults:
        print(fault)
    print(f'{len(told) - len(faults)} passed, {len(faults)} failed')
    return 1 if faults or not told else 0


if __name__ == '__main__':
    sys.exit(main(os.path.abspath(sys.argv[1]), sys.argv[2:]))
