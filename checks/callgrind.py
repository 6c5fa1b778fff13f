"""The instructions of a built eve-tpcc, counted by valgrind's callgrind: of parts of a session, and of `check`.

Each count is a pair: the instructions of hashing, with all that it calls, and all others. They are told apart by the names of functions."""
import os
import re
import subprocess
import sys
import tempfile
import threading

CALLGRIND = ['valgrind', '-q', '--tool=callgrind']
HASHING = re.compile(r'(merkle|hashers|sha2|sha2_lanes|token)::|.*::digest\b')


def split(path):
    """The pair of a file of callgrind."""
    names, hashing, total, is_call, caller, callee = {}, 0, 0, False, False, False
    with open(path, encoding='utf-8') as lines:
        for line in lines:
            found = re.match(r'(c?fn)=(\(\d+\))(?: (.*))?$', line)
            if found:
                is_hashing = bool(HASHING.match(names.setdefault(found[2], found[3])))
                caller, callee = (is_hashing, callee) if found[1] == 'fn' else (caller, is_hashing)
            elif is_call:
                hashing += int(line.split()[1]) if callee and not caller else 0
            elif line.startswith(('summary:', 'totals:')):
                total = int(line.split()[1])
            is_call = line.startswith('calls=')
    return hashing, total - hashing


def per_call(less, more, calls):
    """The difference of two counts, per call."""
    return [round((b - a) / calls) for a, b in zip(less, more)]


def written(folder, image):
    """The path of an image, written to a folder."""
    path = os.path.join(folder, 'image.csv')
    with open(path, 'w', encoding='ascii') as file:
        file.write(image)
    return path


def of_check(program, image):
    """The count of `check` of an image."""
    with tempfile.TemporaryDirectory() as folder:
        counts = os.path.join(folder, 'counts')
        words = [*CALLGRIND, f'--callgrind-out-file={counts}', program, 'check', written(folder, image)]
        subprocess.run(words, capture_output=True, check=True)
        return split(counts)


class Session:
    """A session of one worker on an image. What comes before `begin` isn't counted."""

    def __init__(self, program, image, words=()):
        self.folder, self.dumps = tempfile.TemporaryDirectory(), 0
        self.counts = os.path.join(self.folder.name, 'counts')
        words = [program, 'serve', written(self.folder.name, image), '--workers', '1', *words]
        words = [*CALLGRIND, '--instr-atstart=no', f'--callgrind-out-file={self.counts}', *words]
        self.process = subprocess.Popen(words, stdin=subprocess.PIPE, stdout=subprocess.PIPE, text=True)

    def __enter__(self):
        return self

    def __exit__(self, *_):
        self.process.kill()
        self.process.communicate()
        self.folder.cleanup()

    def send(self, commands):
        self.process.stdin.write(commands)
        self.process.stdin.flush()

    def answer(self, commands):
        """Sends commands, and reads their answers up to that of one more."""
        writer = threading.Thread(target=self.send, args=(commands + 'T\n',))
        writer.start()
        for line in self.process.stdout:
            if re.match('(refused|fault),', line) or ',refused,' in line:
                sys.exit(f'callgrind: {line}')
            if line.startswith('state,'):
                break
        writer.join()

    def tell(self, *words):
        """Gives callgrind a command."""
        subprocess.run(['vgdb', f'--pid={self.process.pid}', *words], capture_output=True, check=True)

    def begin(self):
        self.tell('instrumentation', 'on')

    def counted(self, commands):
        """The count of commands."""
        self.answer(commands)
        self.tell('dump')
        self.dumps += 1
        return split(f'{self.counts}.{self.dumps}')
