"""What the tests of the programs share. A program of target/bin reads a table from standard input; what it prints is compared byte for byte. The texts are
files NAME.in and NAME.out, whole and in pieces of one byte, and long runs generated here. A read that fails does not pass for the end of the input; a write
that fails is reported on standard error. Each of these runs has 16 MB of addresses."""
import concurrent.futures
import fcntl
import os
import pathlib
import resource
import signal
import struct
import subprocess
import sys
import tempfile
import termios
import time

TESTS = pathlib.Path(__file__).parent
LONG = 10_000_000
THOUSANDS = 5_000

passed = failed = 0


def expect(name, got, want):
    global passed, failed
    if got == want:
        passed += 1
    else:
        failed += 1
        print(f"{name}: {got!r}, expected {want!r}")


def finish():
    print(f"{passed} passed, {failed} failed")
    sys.exit(failed != 0)


def texts(program):
    """The stored texts of a program: the name of each, the input and the output."""
    for source in sorted((TESTS / program / "texts").glob("*.in")):
        yield source.stem, source.read_bytes(), source.with_suffix(".out").read_bytes()


def little_memory():
    resource.setrlimit(resource.RLIMIT_AS, (16 << 20, 16 << 20))


def ended(process, text=None):
    """What a process printed on standard output and standard error, and its status."""
    out, err = process.communicate(text, timeout=60)
    return out, err, process.returncode


def unread(pipe):
    """How many bytes of a pipe have not been read yet."""
    return struct.unpack("i", fcntl.ioctl(pipe, termios.FIONREAD, bytes(4)))[0]


def one_by_one(text):
    return [text[i:i + 1] for i in range(len(text))]


def closed(fd):
    def before():
        little_memory()
        os.close(fd)
    return before


def nonblocking_pipe(text):
    """A pipe that holds a text and may get more. Its read end is non-blocking: a read fails when there is nothing."""
    read_end, write_end = os.pipe()
    os.set_blocking(read_end, False)
    os.write(write_end, text)
    return read_end, write_end


def full_pipe():
    """A pipe without room. Its write end is non-blocking: a write fails."""
    read_end, write_end = os.pipe()
    os.set_blocking(write_end, False)
    try:
        while True:
            os.write(write_end, bytes(4096))
    except BlockingIOError:
        return read_end, write_end


def short_files():
    """Files of at most ten bytes; a write that would go past that takes what fits, and the next one fails."""
    little_memory()
    signal.signal(signal.SIGXFSZ, signal.SIG_IGN)
    resource.setrlimit(resource.RLIMIT_FSIZE, (10, 10))


def no_signal():
    little_memory()
    signal.signal(signal.SIGPIPE, signal.SIG_IGN)


def both_closed():
    little_memory()
    os.close(1)
    os.close(2)


class Program:
    """A program, and one of its stored texts, a table that it does not refuse."""

    def __init__(self, name, table):
        self.path = TESTS.parent / "target" / "bin" / name
        self.failure = f"{name}: writing failed\n".encode()
        self.table, self.printed = next((text, out) for stem, text, out in texts(name) if stem == table)

    def start(self, stdin, stdout=subprocess.PIPE, before=little_memory):
        return subprocess.Popen([self.path], stdin=stdin, stdout=stdout, stderr=subprocess.PIPE, preexec_fn=before)

    def run(self, text):
        return ended(self.start(subprocess.PIPE), text)

    def run_all(self, texts):
        """The same for many texts, two at a time and with all memory."""
        with concurrent.futures.ThreadPoolExecutor(2) as pool:
            return list(pool.map(lambda text: ended(self.start(subprocess.PIPE, before=None), text), texts))

    def feed(self, pieces):
        """The same for a text in pieces. Each piece is written once the one before has been read, so that each is a read of its own."""
        read_end, write_end = os.pipe()
        process = self.start(read_end)
        os.close(read_end)
        until = time.monotonic() + 60
        for piece in pieces:
            os.write(write_end, piece)
            while unread(write_end) > 0 and time.monotonic() < until:
                os.sched_yield()
        if unread(write_end) > 0:
            process.kill()
        os.close(write_end)
        return ended(process)

    def texts(self, stored):
        for name, text, out in stored:
            expect(name, self.run(text), (out, b"", 0))
            expect(name + ", byte by byte", self.feed(one_by_one(text)), (out, b"", 0))

    def streams(self):
        """Everything but what is printed for a table."""
        self.pieces()
        self.long_runs()
        self.reads()
        self.writes()

    def pieces(self):
        """Texts of thousands of bytes in as many pieces, and a table split at each of its places."""
        cells = b"01-1" * (THOUSANDS // 4)
        for name, text, want in [
            ("a run in thousands of pieces", b"6\n" + cells + b"\n", b"refused 2\n"),
            ("a run in thousands of pieces, then a wrong character", b"6\n" + cells + b"x\n", b"refused 9\n"),
            ("a run in thousands of pieces without a last line feed", b"6\n" + cells, b"refused 9\n"),
            ("a wrong character, then a run in thousands of pieces", b"x\n" + cells + b"\n", b"refused 9\n"),
        ]:
            expect(name, self.feed(one_by_one(text)), (want, b"", 0))
        for place in range(1, len(self.table)):
            expect(f"a table broken at {place}", self.feed([self.table[:place], self.table[place:]]), (self.printed, b"", 0))

    def long_runs(self):
        """Runs of ten million cells: within a second of processor time, and in constant memory."""
        cells = b"01-1" * (LONG // 4)
        for name, text, want in [
            ("a long run", b"6\n" + cells + b"\n", b"refused 2\n"),
            ("a long run at width 0", b"0\n" + cells + b"\n", b"refused 1\n"),
            ("a long run with a wrong character at its end", b"6\n" + cells + b"x\n", b"refused 9\n"),
            ("a long run without a last line feed", b"6\n" + cells, b"refused 9\n"),
        ]:
            before = resource.getrusage(resource.RUSAGE_CHILDREN)
            expect(name, self.run(text), (want, b"", 0))
            after = resource.getrusage(resource.RUSAGE_CHILDREN)
            expect(name + ": within a second", after.ru_utime + after.ru_stime - before.ru_utime - before.ru_stime < 1, True)

    def reads(self):
        """Reads that fail, and empty input."""
        refused = (b"refused 9\n", b"", 0)
        expect("closed standard input", ended(self.start(None, before=closed(0))), refused)
        with open("/dev/null", "rb") as nothing:
            expect("nothing on standard input", ended(self.start(nothing)), refused)
        folder = os.open("/", os.O_RDONLY)
        expect("a directory as standard input", ended(self.start(folder)), refused)
        os.close(folder)
        for name, text in [("an empty non-blocking pipe", b""), ("a non-blocking pipe that holds a whole table", self.table)]:
            read_end, write_end = nonblocking_pipe(text)
            expect(name, ended(self.start(read_end)), refused)
            os.close(read_end)
            os.close(write_end)

    def writes(self):
        """Writes that fail, in whole or after some bytes: standard error says so."""
        def written(stdout, before=little_memory, text=self.table):
            return ended(self.start(subprocess.PIPE, stdout, before), text)

        failure = (None, self.failure, 0)
        with open("/dev/full", "wb") as full:
            expect("a full device", written(full), failure)
            expect("a full device, refused", written(full, text=b""), failure)
        expect("closed standard output", written(None, closed(1)), failure)
        expect("both outputs closed", written(None, both_closed), (None, b"", 0))
        read_end, write_end = os.pipe()
        os.close(read_end)
        expect("a pipe without a reader", written(write_end, no_signal), failure)
        # the start-up of a program ignores the signal, whatever it was before, so that the write fails
        expect("a pipe without a reader, and its signal", written(write_end), failure)
        os.close(write_end)
        read_end, write_end = full_pipe()
        expect("a full non-blocking pipe", written(write_end), failure)
        os.close(read_end)
        os.close(write_end)
        with tempfile.TemporaryFile() as file:
            expect("a file with too little room", written(file, short_files), failure)
            file.seek(0)
            expect("what fits of it", file.read(), self.printed[:10])
