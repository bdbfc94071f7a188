"""The bounds of a session, and large files. Memory of some 2 GB is needed, and no place on the disk."""
from .running import is_answered, is_fault, is_run, make_large, remove, start, want
from .texts import MAP

MOST_BYTES = 1073741824
LINES = (b"#" * 1199 + b"\n") * 1000  # remarks, so many in 1,200,000 bytes


def stream(words, before, size, behind):
    """Gives a session remarks in so many bytes, with lines before and behind them; answers what `run` does."""
    process = start(words)
    try:
        process.stdin.write(before)
        for _ in range(size // len(LINES)):
            process.stdin.write(LINES)
        process.stdin.write(b"#" * (size % len(LINES) - 1) + b"\n" + behind)
        process.stdin.close()
    except BrokenPipeError:
        pass
    out, err = process.stdout.read(), process.stderr.read()
    process.stdout.close(), process.stderr.close()
    return process.wait(), out, err


def many_lines():
    """1,000,000 lines, the last one with its end and without it; not one more; the lines before are answered."""
    is_answered(["serve", "--map", "m"], b"\n" * 1000000, "")
    is_answered(["serve", "--map", "m"], b"\n" * 999999 + b"version", "version 0\n")
    is_fault(["serve", "--map", "m"], "too many lines", b"\n" * 1000001)
    is_fault(["serve", "--map", "m"], "too many lines", b"version\n" + b"\n" * 999999 + b"v", "version 0\n")


def lines_of_a_map():
    """The lines of a map that stands first don't count as a session's."""
    is_answered([], MAP + b"\n" * 1000000, "")
    is_fault([], "too many lines", MAP + b"\n" * 1000001)


def many_bytes():
    """1,073,741,824 bytes in fewer than 1,000,000 lines, and not one more; what was complete is answered."""
    ask = b"version\n"
    whole = stream(["serve", "--map", "m"], b"", MOST_BYTES - len(ask), ask)
    want("what it does", whole, (0, b"version 0\n", b""))
    whole = stream(["serve", "--map", "m"], ask, MOST_BYTES, b"")
    want("what it does", whole, (2, b"version 0\n", b"mapf_desk: too many bytes\n"))


def bytes_of_a_map():
    """A map that stands first counts towards the bytes."""
    whole = stream([], MAP, MOST_BYTES - len(MAP) + 1, b"")
    want("what it does", whole, (2, b"", b"mapf_desk: too many bytes\n"))


def a_long_line():
    """One line has no limit of its own: a remark of 200,000,000 bytes is one, and lines behind it are answered."""
    is_answered(["serve", "--map", "m"], b"#" * 200000000 + b"\nversion\nx\n", "version 0\nbad 3 word\n")


def a_large_file():
    """A file may have 1,073,741,824 bytes; one with more isn't looked at."""
    make_large("large", MOST_BYTES)
    try:
        is_fault(["serve", "--map", "large"], "map: not octile")
        make_large("large", MOST_BYTES + 1)
        is_fault(["serve", "--map", "large", "-v"], f"can't read large\n  more than {MOST_BYTES} bytes")
        is_fault(["audit", "--map", "m", "--journal", "large"], "can't read large")
    finally:
        remove("large")


def a_large_map():
    """The largest maps are read, whole: 2,048 columns by 512 rows, and the other way."""
    for columns, rows, outside in ((2048, 512, b"0,512"), (512, 2048, b"512,0")):
        with open("large", "wb") as file:
            file.write(b"type octile\nheight %d\nwidth %d\nmap\n" % (rows, columns) + (b"." * columns + b"\n") * rows)
        lines = b"agent 0 0,0 %d,%d\ndistance 0 0,0\nagent 1 %s 0,0\n" % (columns - 1, rows - 1, outside)
        is_run(["serve", "--map", "large"], lines, (0, "version 1\ndistance 2558\nrefused faulty 0 out-of-map\n", ""))
    remove("large")


def tests():
    for test in (many_lines, lines_of_a_map, many_bytes, bytes_of_a_map, a_long_line, a_large_file, a_large_map):
        yield test.__name__, test
