#!/usr/bin/env python3
"""Two replicas that execute the same batches, and agree on each one before its replies are released.

usage: replica.py PROGRAM IMAGE BATCHES [DAMAGED]

PROGRAM is eve-tpcc. Two processes of it serve the database of IMAGE, one with 1 worker and one with 8. The batches of BATCHES are sent to
both, eight at a time. Those on whose tokens they agree are committed, and only then are their replies written to standard output. If tokens
differ, both roll back to the last committed batch and re-execute the others in order. If they still differ, the memory of one is damaged,
and it is unknown whose: both are restarted from the last checkpoint, an image that both gave in the same bytes, taken after every eight
batches. Before the eight that include batch DAMAGED, the second replica is restarted from a wrong image, as if its memory were damaged.
Standard error tells what happens; the status is 0 if all batches were agreed on."""
import contextlib
import queue
import re
import subprocess
import sys
import tempfile
import threading
from pathlib import Path

IN_FLIGHT = 8
WORKERS = (1, 8)


class Replica:
    """A process that serves the database of an image, from a stamp if one is given."""

    def __init__(self, program, workers, image, stamp=None):
        words = [program, "serve", image, "--workers", str(workers)] + (["--from", stamp] if stamp else [])
        self.process = subprocess.Popen(words, stdin=subprocess.PIPE, stdout=subprocess.PIPE)
        self.answers = queue.Queue()
        threading.Thread(target=self.read, daemon=True).start()

    def read(self):
        """Queues each answer: its last record, and the replies before it, which begin with numbers, or the image after it."""
        output, replies = self.process.stdout, b""
        for line in output:
            if line[:1].isdigit():
                replies += line
                continue
            last = line.decode("ascii").rstrip("\n")
            image = output.read(int(last.split(",")[2])) if last.startswith("image,") else b""
            self.answers.put((last, image or replies))
            replies = b""
        self.answers.put(None)

    def send(self, text):
        with contextlib.suppress(BrokenPipeError):
            self.process.stdin.write(text.encode("ascii"))
            self.process.stdin.flush()


class Pair:
    """Two replicas, the number of committed batches and their tokens, and the last checkpoint: an image and its stamp."""

    def __init__(self, program, image, folder):
        self.program, self.image, self.stamp = program, Path(folder, "checkpoint.csv"), None
        self.replicas, self.committed, self.tokens = [Replica(program, workers, image) for workers in WORKERS], 0, []
        self.take_checkpoint()

    def answers(self):
        return [replica.answers.get() or sys.exit("replica: a session ended") for replica in self.replicas]

    def ask(self, command, wanted):
        """The answer of both to a command. Ends the program if the answers differ, or don't begin as wanted."""
        for replica in self.replicas:
            replica.send(f"{command}\n")
        one, other = self.answers()
        if one != other or not one[0].startswith(wanted):
            sys.exit(f"replica: {command} was answered {one[0]} and {other[0]}")
        return one

    def execute(self, batches):
        """Has both execute batches, and commits them up to the first on which they disagree."""
        for batch in batches:
            for replica in self.replicas:
                replica.send(batch)
        for one, other in [self.answers() for _ in batches]:
            if one != other or not one[0].startswith(f"batch,{self.committed + 1},"):
                return
            self.ask("C", f"commit,{self.committed + 1}")
            self.committed += 1
            self.release(one[0].split(",")[3], one[1])

    def release(self, token, replies):
        """Releases the replies of a batch at its first commit; if it was re-executed, its token must be the same."""
        if self.committed > len(self.tokens):
            self.tokens.append(token)
            sys.stdout.buffer.write(replies)
        if token != self.tokens[self.committed - 1]:
            sys.exit(f"replica: batch {self.committed} has another token than before")

    def replace(self, which, image):
        """Kills a replica, and starts another from the checkpoint."""
        self.replicas[which].process.kill()
        self.replicas[which].process.wait()
        self.replicas[which] = Replica(self.program, WORKERS[which], image, self.stamp)

    def restart(self):
        self.replace(0, self.image)
        self.replace(1, self.image)
        self.committed = int(self.stamp.split(",")[0])
        self.ask("A", f"at,{self.stamp}")

    def take_checkpoint(self):
        """Stores the state of both. The file is replaced in one step, so it is always complete."""
        self.stamp = self.ask("A", f"at,{self.committed},")[0][len("at,") :]
        new = self.image.with_name("new.csv")
        new.write_bytes(self.ask("I", f"image,{self.committed},")[1])
        new.replace(self.image)

    def damage(self):
        """Restarts the second replica with another credit for one customer."""
        damaged = self.image.with_name("damaged.csv")
        damaged.write_bytes(self.image.read_bytes().replace(b",GC,", b",BC,", 1))
        self.replace(1, damaged)


def complete(pair, batches):
    """Gets a pair at a checkpoint to agree on batches, and takes the next checkpoint."""
    first, last = pair.committed + 1, pair.committed + len(batches)
    pair.execute(batches)
    if pair.committed < last:
        print(f"batch {pair.committed + 1}: the tokens differ, both go back", file=sys.stderr)
        pair.ask(f"R,{pair.committed}", f"rollback,{pair.committed},")
        pair.execute([batch.replace(",commit,", ",rerun,", 1) for batch in batches[pair.committed - last :]])
    if pair.committed < last:
        print(f"batch {pair.committed + 1}: the tokens still differ, both start again from the checkpoint", file=sys.stderr)
        pair.restart()
        pair.execute(batches)
    if pair.committed < last:
        sys.exit(f"replica: no agreement on batch {pair.committed + 1}")
    pair.take_checkpoint()
    print(f"batches {first} to {last}: committed, {pair.tokens[-1][:16]}", file=sys.stderr)


def main(program, image, batches, damaged="0"):
    batches = re.split("^(?=B,)", Path(batches).read_text("ascii"), flags=re.MULTILINE)[1:]
    with tempfile.TemporaryDirectory() as folder:
        pair = Pair(program, image, folder)
        for first in range(0, len(batches), IN_FLIGHT):
            if first < int(damaged) <= first + IN_FLIGHT:
                pair.damage()
            complete(pair, batches[first : first + IN_FLIGHT])
        return max(replica.process.stdin.close() or replica.process.wait() for replica in pair.replicas)


if __name__ == "__main__":
    sys.exit(main(*sys.argv[1:]) if len(sys.argv) in (4, 5) else __doc__)
