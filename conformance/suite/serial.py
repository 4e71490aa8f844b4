"""A board that takes its cases over a serial line: a command whose standard streams are that line."""
import os
import select
import shlex
import struct
import subprocess

from . import answers, place
from .blob import RESETS, blob_of
from .simulator import batches_of


class Serial:
    """Runs on one image, which is loaded once. Behind a case that writes can't undo the board is reset: by itself, by a
    command, or by starting the line's command again, which is said by the command `again`."""

    is_hart = True
    # A line of so many seconds without a letter is one of a hart that hangs.
    SILENCE = 20

    def __init__(self, words, elf, reset_command):
        self.words = [it.replace("ELF", elf) for it in words]
        self.reset_command = reset_command
        self.has_reset = place.has_reset()
        self.resets_itself = self.has_reset and not reset_command
        # What the board told that isn't read yet.
        self.line, self.room, self.told = None, 0, b""

    def start(self):
        self.stop()
        self.line, self.told = subprocess.Popen(self.words, stdin=subprocess.PIPE, stdout=subprocess.PIPE), b""
        self.is_asking()

    def stop(self):
        if self.line:
            self.line.kill()
            self.line.communicate()
            self.line = None

    def __del__(self):
        self.stop()

    def lines(self):
        """The lines that the board tells, until it is silent or gone."""
        while True:
            while b"\n" in self.told:
                line, self.told = self.told.split(b"\n", 1)
                yield line.decode("ascii", "replace").strip()
            ready, _, _ = select.select([self.line.stdout], [], [], self.SILENCE)
            found = os.read(self.line.stdout.fileno(), 4096) if ready else b""
            if not found:
                return
            self.told += found

    def is_asking(self):
        """Waits until the board asks for cases."""
        for line in self.lines():
            if line.startswith("g "):
                self.room = int(line[2:], 16)
                return True
        return False

    def reset(self):
        if self.reset_command in (None, "again"):
            self.start()
        else:
            subprocess.run(shlex.split(self.reset_command), check=True)
            self.is_asking()

    def send(self, runs):
        """Sends cases, and gives the lines up to the board's end of them, and whether it came to it."""
        is_reset = self.resets_itself and any(it.is_sticky for it in runs)
        blob = blob_of([it.numbered(number) for number, it in enumerate(runs)], RESETS if is_reset else 0)
        words = struct.unpack(f"<{len(blob) // 4}I", blob)
        self.line.stdin.write(struct.pack("<II", len(blob), sum(words) & 0xffffffff) + blob)
        self.line.stdin.flush()
        found = []
        for line in self.lines():
            if line.startswith("z"):
                return found, True
            if line.startswith("g "):
                # The sum was wrong, or the board was reset in between.
                return found, None
            found.append(line)
        return found, False

    def run_batch(self, runs):
        if self.line is None:
            self.start()
        lines, is_whole = self.send(runs)
        is_left = any(it.is_sticky for it in runs) and not self.resets_itself
        if not is_whole or is_left or not self.is_asking():
            self.reset()
        found = answers.read("\n".join(lines))
        return [found.get(it, []) for it in range(len(runs))]

    def run(self, runs, is_alone=False):
        if self.line is None:
            self.start()
        order = {id(run): place for place, run in enumerate(runs)}
        found = [[] for _ in runs]
        for batch in [[it] for it in runs] if is_alone else batches_of(runs, self.room - 256, 40):
            for run, these in zip(batch, self.run_batch(batch)):
                found[order[id(run)]] = these
        return found
