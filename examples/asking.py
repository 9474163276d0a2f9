"""A host at the other end of pipes: `Host().ask(LINE, ..)` gives the replies to these lines. `wasmhost` is on the path."""
import itertools
import queue
import subprocess
import threading


class Host:
    """A `wasmhost` with these words on its command line, and a thread that reads what it prints."""

    def __init__(self, *words):
        self.program = subprocess.Popen(["wasmhost", *words], stdin=subprocess.PIPE, stdout=subprocess.PIPE, text=True)
        self.lines, self.sent = queue.SimpleQueue(), 0
        threading.Thread(target=self.read, daemon=True).start()

    def read(self):
        """Keeps the lines that come, and None behind the last one."""
        for line in itertools.chain(self.program.stdout, [None]):
            self.lines.put(line)

    def ask(self, *lines):
        """The replies to these lines, behind which a line that can't be obeyed is a fence."""
        print(*lines, "fence", sep="\n", file=self.program.stdin, flush=True)
        self.sent += len(lines) + 1
        replies = []
        while (line := self.lines.get()) != f"error C1 line {self.sent}\n":
            if line is None:
                raise EOFError(f"wasmhost has ended, status {self.program.wait()}")
            replies.append(line.rstrip("\n"))
        return replies
