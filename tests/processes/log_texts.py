"""The texts of logs, made from docs/PROTOCOL.md alone, and what sessions with a log are given and answered."""
import hashlib

from .running import want

WIDE = b"type octile\nheight 2\nwidth 9\nmap\n.........\n.........\n"
SERVE = ["serve", "--map", "wide", "--log", "log"]
OFF = [*SERVE, "--sync", "off"]  # where it isn't asked what is synced: some disks take long for that


def digits(text):
    return hashlib.sha256(text).hexdigest().encode()


def head(shown=WIDE, scen=b"", agents=0, mode=b"stay"):
    return b"log 1\nmode %s\nscene %s\n" % (mode, digits(shown + b"\n" + scen + b"\n" + b"%d" % agents))


def log_of(entries, begins=None):
    """The text of a log of those entries."""
    text = begins or head()
    check = digits(text)[:16]
    for number, entry in enumerate(entries, 1):
        check = digits(check + entry)[:16]
        text += entry + b"commit %d %s\n" % (number, check)
    return text


def edits(count):
    """Lines of a session, each of which makes a commit; and the entries that they make."""
    lines = [(b"close %d,1" if it // 9 % 2 == 0 else b"open %d,1") % (it % 9) for it in range(count)]
    return lines, [b"entry 0 %d 0 1\n%s\n" % (it, line) for it, line in enumerate(lines)]


def many_entries(count):
    """Entries of one line and of more, with watches, edits, paths, pieces and blocks, as a desk takes them."""
    bodies = (b"0 2\nagent 7 0,0 8,0\nclose %d,1\n", b"1 1\nwatch map\npath 7 0,0 1,0 2,0\n",
              b"0 3\nopen %d,1\ntail 7 0 0,0 0,0\ndrop 7\n", b"0 1\nclose 7,1\n",
              b"3 1\nwatch cell 1,1\nwatch agent %d\nwatch map\nclose 8,0\n", b"0 1\nopen 8,0\n")
    for it in range(count):
        body = bodies[it % len(bodies)]
        yield b"entry 0 %d %s" % (it, body % (it % 9) if b"%d" in body else body)


def answers(first, last):
    return "".join(f"version {it}\n" for it in range(first, last + 1))


def entries_in(text, begins=None):
    """The entries of a log, where that is the log of these."""
    begins = begins or head()
    found, entry = [], b""
    for line in text[len(begins):].splitlines(keepends=True):
        if line.startswith(b"commit "):
            found.append(entry)
            entry = b""
        else:
            entry += line
    want("the log", text, log_of(found, begins))
    return found


def tear_note(count):
    """What is told of so many bytes behind the last whole entry."""
    return f"note: log: {count} bytes of an entry that was not finished\n" if count else ""
