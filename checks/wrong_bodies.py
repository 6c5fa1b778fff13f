#!/usr/bin/env python3
"""wrong_bodies.py [CRATE ..]: tries the wrong bodies of the given crates, or of all, in groups.

Each is an edit of a crate's code that the prover must refuse. The gate tries those in crates/CRATE/must-fail, which stand for theorems; all
others are in checks/wrong_bodies/CRATE. This script tries both, before a contract of the crate, or a function that they edit, lands changed.

The edits of a group are applied to one copy of the crate, of which `rattle check` proves the edited functions and what they call there. Edits
of one function, or of a function and one that it calls, are tried in different groups. An edit is refused if each function that it edits has a
goal of its own that isn't proved: not just a call of a function that isn't proved, nor a proof file that names what the edit took away. In
each group one more function gets a statement that does nothing; it must be proved, so that a check that fails for another reason counts for
nothing. An edit that can't be applied, or doesn't compile, fails.

Run `rt check` in the crate first. It makes the libraries below, in crates/NAME/out/rlib, without which the crate isn't tried (the gate leaves
them there, too), and keeps what it proved, with which the checks here begin. A library older than its source would go unseen. Prints what
each edit came to, and 'N passed, M failed'. Ends with status 1 if an edit isn't refused."""
import collections
import itertools
import os
import re
import resource
import shutil
import subprocess
import sys
import tempfile

from edits import TOP, BadEdit, applied, bodies_of, calls, crates_with_edits, functions_in, paths_of, read_edit, read_text, texts_of

HARMLESS = 'let _ = ();'

# A goal that nothing proves, by its name, above the line of its function; and an answer of a function's proof file that is wrong.
GOAL = re.compile(r'note: src/\S+?:\d+:\d+: it is not proved .*?\(`([^`]*)`\)')
ANSWER = re.compile(r'\./proofs/(\S+)/\w+\.antt:\d+:\d+: error: (?:`([^`]*)`)?')
# What is said of an answer that names what an edit took away, or that stands on another.
NAMES = re.compile(r'has no field|is not in scope|has no `|was not admitted|not checked')

Group = collections.namedtuple('Group', 'edits texts')


def are_apart(one, other, bodies):
    """Whether no function that one edit changes is one that the other changes, or calls it, or is called by it."""
    return not any(a == b or calls(bodies[a], b) or calls(bodies[b], a) for a in one.functions for b in other.functions)


def joined(group, edit, bodies):
    """The texts of a group with one more edit, or None if it can't be tried beside the others."""
    try:
        return applied(edit.pieces, group.texts) if all(are_apart(edit, other, bodies) for other in group.edits) else None
    except BadEdit:
        return None


def grouped(edits, texts, bodies):
    """The edits in groups, each with the texts that it makes."""
    groups = []
    for edit in edits:
        for place, group in enumerate(groups):
            more = joined(group, edit, bodies)
            if more:
                groups[place] = Group([*group.edits, edit], more)
                break
        else:
            groups.append(Group([edit], applied(edit.pieces, texts)))
    return groups


def callers_of(paths, bodies):
    """These functions, and those that reach one of them by calls."""
    found, left = set(paths), list(paths)
    while left:
        called = left.pop()
        more = [path for path in bodies if path not in found and calls(bodies[path], called)]
        found.update(more)
        left += more
    return found


def harmless_place(group, bodies):
    """The path of a function that reaches no edited one, the shortest of those that call no other where there are such; or None."""
    reached = callers_of([path for edit in group.edits for path in edit.functions], bodies)
    left = [path for path in bodies if path not in reached]
    return min(left, key=lambda path: (path.startswith('laws'), any(calls(bodies[path], it) for it in bodies), len(bodies[path])), default=None)


def with_harmless(texts, path):
    """The texts with a statement that does nothing in the function of this path."""
    for file, text in texts.items():
        for function in functions_in(file, text):
            if function.path == path:
                lines = text.split('\n')
                lines[function.opens] = lines[function.opens].replace('{', f'{{ {HARMLESS} ', 1)
                return {**texts, file: '\n'.join(lines)}
    raise AssertionError(path)


def used_by(crate):
    """The libraries that a crate uses, as crates.txt lists them, the kit's among them."""
    return next(line.partition(':')[2].split() for line in read_text(f'{TOP}/crates.txt').split('\n') if line.startswith(f'{crate}:'))


def below(crate):
    """The repository's libraries below a crate."""
    found = []
    for name in used_by(crate):
        if os.path.isdir(f'{TOP}/crates/{name}'):
            found += [it for it in [*below(name), name] if it not in found]
    return found


def link_or_copy(one, other):
    """Gives what was proved another name, since the prover replaces such a file, and changes none; copies other files."""
    try:
        if one.endswith('.oantt'):
            return os.link(one, other)
    except OSError:
        pass
    return shutil.copy2(one, other)


def kept_words(crate, room):
    """The words by which the prover begins with what `rt check` of the crate kept, of which it gets a copy."""
    kept = f'{TOP}/crates/{crate}/out/incremental'
    if not os.path.isdir(kept):
        return []
    shutil.copytree(kept, f'{room}/kept', copy_function=link_or_copy)
    return ['--incremental', f'{room}/kept']


def library(name):
    return f'{TOP}/crates/{name}/out/rlib/{name}.rlib'


def words_of(crate, root):
    """The words by which rt has the prover check a crate."""
    kit = os.path.dirname(os.path.dirname(os.path.realpath(shutil.which('rt') or sys.exit('rt (the Rattle kit) is not on the PATH'))))
    words = [f'{kit}/bin/rattle', 'check', '--crate-name', crate, root, '-L', f'dependency={kit}/rlibs']
    for name in ['std', *used_by(crate)]:
        words += ['--extern', f'{name}={library(name) if name in below(crate) else f"{kit}/rlibs/{name}.rlib"}']
    for name in below(crate):
        words += ['-L', f'dependency={os.path.dirname(library(name))}']
    return [*words, '--antt-project', f'{kit}/rattle/logic/antt-project.json', '--logic-built', f'{kit}/logic_built', '--jobs', '1', '--links', f'{crate}=']


def checked(crate, texts, paths):
    """What the prover says of these functions of a copy of the crate with these texts: its status and its lines."""
    words = words_of(crate, 'src/main.rt' if 'src/main.rt' in texts else 'src/lib.rt')
    words += [word for path in paths for word in ('--only', path)]
    with tempfile.TemporaryDirectory() as room:
        for part in ('src', 'specs', 'proofs'):
            if os.path.isdir(f'{TOP}/crates/{crate}/{part}'):
                shutil.copytree(f'{TOP}/crates/{crate}/{part}', f'{room}/{part}')
        for file, text in texts.items():
            with open(os.path.join(room, file), 'w', encoding='utf-8') as out:
                out.write(text)
        how = {'stdin': subprocess.DEVNULL, 'stdout': subprocess.PIPE, 'stderr': subprocess.STDOUT, 'errors': 'replace'}
        ran = subprocess.run([*words, *kept_words(crate, room)], cwd=room, check=False, **how)
    return ran.returncode, ran.stdout.rstrip('\n').split('\n')


def said_of(crate, path, lines):
    """What the line of a function says, and the names of the goals of its own, or of its cycle of calls, that aren't proved."""
    goals, head, folder = [], f'fn {crate}::{path}: ', path.replace('::', '/')
    cycle = os.path.join(os.path.dirname(folder), '+')
    for number, line in enumerate(lines):
        answer = ANSWER.match(line)
        if answer and (answer[1] == folder or answer[1].startswith(cycle)) and not NAMES.search(line):
            goals.append(answer[2] or 'an answer')
        elif line.startswith(head):
            above = itertools.takewhile(lambda it: not it.startswith('fn '), reversed(lines[:number]))
            return line[len(head):], [*goals, *[goal[1] for goal in map(GOAL.match, above) if goal]]
    return 'not named', goals


def outcome(crate, edit, lines):
    """Whether an edit is refused, and what is said of it; None for the former if a call of a function that isn't proved hides its goals."""
    told = []
    for path in edit.functions:
        status, goals = said_of(crate, path, lines)
        if not status.startswith(('not proved', 'no proof')):
            return False, f'NOT REFUSED: {path}: {status}'
        if not goals:
            return None if 'it calls' in status else False, f'REFUSED BY NO GOAL OF ITS OWN: {path}: {status}'
        told.append(f'{path}: {", ".join(dict.fromkeys(goals))}')
    return True, f'refused: {"; ".join(told)}'


def fault_of_whole(crate, harmless, status, lines):
    """Why a check says nothing of its edits, or nothing."""
    if status != 1 or not lines[-1].startswith('only=') or any('error[' in line for line in lines):
        return f'NOT TRIED: status {status}: {next((line for line in lines if "error[" in line), lines[-1])}'
    accepted = said_of(crate, harmless, lines)[0]
    return None if accepted == 'proved' else f'NOT TRIED: {harmless}, with a statement that does nothing: {accepted}'


def outcomes(crate, group, bodies):
    """For each edit of a group whether it is refused, and what is said. If the whole says nothing, each is tried alone."""
    harmless = harmless_place(group, bodies)
    if not harmless:
        return [(False, 'NOT TRIED: no function of the crate is left for a harmless edit') for _ in group.edits]
    paths = [harmless, *[path for edit in group.edits for path in edit.functions]]
    status, lines = checked(crate, with_harmless(group.texts, harmless), paths)
    fault = fault_of_whole(crate, harmless, status, lines)
    if not fault:
        return [outcome(crate, edit, lines) for edit in group.edits]
    if len(group.edits) == 1:
        return [(False, fault)]
    print(f'{crate}: {fault}. Each of these {len(group.edits)} is tried alone.', flush=True)
    return [outcomes(crate, Group([edit], applied(edit.pieces, texts_of(crate))), bodies)[0] for edit in group.edits]


def seconds():
    """The processor seconds of all checks so far."""
    return resource.getrusage(resource.RUSAGE_CHILDREN).ru_utime


def try_edits(crate, edits, texts):
    """Tries edits in groups, once more those whose goals another one of their group hid. Yields each, whether it is refused, and what is said."""
    bodies, hidden = bodies_of(texts), []
    for group in grouped(edits, texts, bodies):
        before = seconds()
        for edit, (is_refused, said) in zip(group.edits, outcomes(crate, group, bodies)):
            if is_refused is None and len(group.edits) > 1:
                hidden.append((edit, said))
            else:
                yield edit.label, is_refused, said
        print(f'{crate}: {len(group.edits)} in one check, {seconds() - before:.0f} seconds of processor', flush=True)
    if len(hidden) < len(edits):
        yield from try_edits(crate, [edit for edit, _ in hidden], texts)
    else:
        yield from [(edit.label, False, said) for edit, said in hidden]


def try_crate(crate):
    """Tries a crate's edits. Yields the label of each, whether it is refused, and what is said."""
    texts, edits, missing = texts_of(crate), [], [name for name in below(crate) if not os.path.isdir(library(name))]
    for path in paths_of(crate):
        try:
            edits.append(read_edit(path, texts))
        except BadEdit as bad:
            yield os.path.relpath(path, TOP), False, f'BAD EDIT: {bad}'
    if missing:
        yield crate, False, f'NOT TRIED: run `rt check` in crates/{crate} first; no library of {", ".join(missing)}'
    else:
        yield from try_edits(crate, edits, texts)


def main(crates):
    passed = failed = 0
    for crate in crates or crates_with_edits():
        for label, is_refused, said in try_crate(crate):
            print(f'{label}: {said}', flush=True)
            passed, failed = passed + bool(is_refused), failed + (not is_refused)
    print(f'{passed} passed, {failed} failed')
    return 1 if failed else 0


if __name__ == '__main__':
    sys.exit(main(sys.argv[1:]))
