"""Inputs and outputs that fail within a line, and each byte as a line of its own."""
import resource
import signal
import socket

from .running import Planner, bytes_of, is_answered, is_fault, put, remove, start, want

ADD = b"agent 0 0,0 0,0"
TOO_LARGE = b"mapf_desk: east: write failed: File too large (os error 27)\n"


def reader_fails_in_a_line():
    """The input fails within a line, as that of a peer who goes away with bytes unheard: the lines before are answered, and this one isn't."""
    here, there = socket.socketpair()
    process = start(["serve", "--map", "m"], stdin=there)
    there.sendall(b"unheard"), here.sendall(b"version\nver")
    want("the answer before", process.stdout.readline(), b"version 0\n")
    here.close(), there.close()
    rest = process.communicate()
    want("the end", (process.returncode, *rest), (2, b"", b"mapf_desk: read failed\n"))


def small_files():
    """A file may have four bytes, and a write beyond them fails."""
    signal.signal(signal.SIGXFSZ, signal.SIG_IGN)
    resource.setrlimit(resource.RLIMIT_FSIZE, (4, 4))


def writer_fails_in_an_answer():
    """The output takes four bytes of an answer, and these go out; what the line committed stands, as the operator of the desk sees."""
    with open("east.out", "wb") as four:
        is_fault(["serve", "--map", "m"], "write failed", ADD, stdout=four, preexec_fn=small_files)
    want("what went out", bytes_of("east.out"), b"vers")
    put("east.in", ADD + b"\n")
    remove("east.out")
    operator = Planner("host", "--map", "m", "east", preexec_fn=small_files)
    want("the planner's fault", operator.process.stderr.readline(), TOO_LARGE)
    operator.ask(b"version\n", b"version 1\n")
    want("the end", operator.end_all(), (2, b"audit same\n", b""))
    want("what went out", bytes_of("east.out"), b"vers")
    remove("east.in", "east.out")


def each_byte_alone():
    """A byte alone is one line: blanks, the end of a line and # are no words, and each other byte is no word of a session."""
    for byte in range(256):
        line, silent = bytes([byte]), byte in b" \t\r\n#"
        answer = "" if silent else "bad 1 word\n"
        is_answered(["serve", "--map", "m"], line, answer)
        is_answered(["serve", "--map", "m"], line.rstrip(b"\n") + b"\nx", f"{answer}bad 2 word\n")


def tests():
    for test in (reader_fails_in_a_line, writer_fails_in_an_answer, each_byte_alone):
        yield test.__name__, test
