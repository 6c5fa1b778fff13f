"""Runs of a program in a folder of its own: how it is given its input, and what it leaves."""
import array
import fcntl
import os
import resource
import socket
import subprocess
import termios
import time

SECONDS = 60


class Ended:
    """How a run ended."""

    def __init__(self, status, output, errors):
        self.status, self.output, self.errors = status, output, errors


def whole(text):
    """Gives the input at once."""
    def feed(process, _):
        process.stdin.write(text)
        process.stdin.close()
    return feed


def wait_until_read(process):
    """Waits until the program has taken all bytes from its input, or has ended."""
    left = array.array('i', [1])
    while process.poll() is None:
        fcntl.ioctl(process.stdin.fileno(), termios.FIONREAD, left)
        if not left[0]:
            return
        time.sleep(0.0001)


def in_pieces(text, size):
    """Gives so many bytes at a time, each when those before were read."""
    def feed(process, _):
        for at in range(0, len(text), size):
            process.stdin.write(text[at:at + size])
            process.stdin.flush()
            wait_until_read(process)
        process.stdin.close()
    return feed


def in_turn(commands):
    """Gives each command when the answer to the one before was written: pairs of a command and of all that is written then."""
    def feed(process, output):
        for command, length in commands:
            process.stdin.write(command)
            process.stdin.flush()
            end = time.monotonic() + SECONDS / 6
            while os.stat(output).st_size < length and process.poll() is None and time.monotonic() < end:
                time.sleep(0.0005)
        process.stdin.close()
    return feed


def for_ever(text, byte):
    """Gives a text, and behind it the same byte until the program ends."""
    def feed(process, _):
        process.stdin.write(text)
        while True:
            process.stdin.write(1_000_000 * byte)
    return feed


def failing_socket(text):
    """A socket from which a text can be read; the read behind it fails, since the other end was closed with a byte unread."""
    ours, theirs = socket.socketpair()
    theirs.sendall(b'x')
    ours.sendall(text)
    ours.close()
    return theirs


class Room:
    """A folder in which a program runs."""

    def __init__(self, program, folder):
        self.program, self.folder = program, folder

    def path(self, name):
        return os.path.join(self.folder, name)

    def write(self, name, text):
        with open(self.path(name), 'wb') as file:
            file.write(text)

    def read(self, name):
        with open(self.path(name), 'rb') as file:
            return file.read()

    def run(self, words, feed=None, stdin=subprocess.DEVNULL, named=None, most=None, piped=False):
        """Runs the program with these words. No file that it writes may have more than the most bytes; its output is such a file, too,
        where it isn't piped."""
        limit = None if most is None else lambda: resource.setrlimit(resource.RLIMIT_FSIZE, (most, most))
        with open(self.path('output'), 'wb') as output:
            process = subprocess.Popen([named or self.program, *words], executable=self.program, cwd=self.folder,
                                       stdin=subprocess.PIPE if feed else stdin, stdout=subprocess.PIPE if piped else output,
                                       stderr=subprocess.PIPE, preexec_fn=limit, restore_signals=limit is None)
            feed_whole(process, feed, self.path('output'))
        output, errors = ended(process)
        return Ended(process.returncode, output if piped else self.read('output'), errors)

    def run_failing(self, words, text):
        """Runs the program; the read of its input behind this text fails."""
        with failing_socket(text) as stdin:
            return self.run(words, stdin=stdin)


def feed_whole(process, feed, output):
    """Feeds a process, which may end before it has taken everything."""
    if feed:
        try:
            feed(process, output)
        except BrokenPipeError:
            pass
        process.stdin = None


def ended(process):
    """What a process wrote to its pipes when it has ended; it is made to end where it takes too long."""
    try:
        return process.communicate(timeout=SECONDS)
    except subprocess.TimeoutExpired:
        process.kill()
        return process.communicate()
