"""Sessions with a log that are killed or stopped at any moment: what was answered is in the log, once and in its order, by the planner's own
record."""
import random
import signal
import time

from .kills import SIGNALS, without_core
from .log_texts import SERVE, WIDE, answers, edits, entries_in, head, log_of, tear_note
from .running import Planner, bytes_of, is_run, put, remove, want

KILLS = 200


def whole_of(text):
    """A log without what stands behind its last commit line."""
    at = text.rfind(b"\ncommit ")
    if at < 0:
        return text[:len(head())]
    end = text.find(b"\n", at + 1)
    return whole_of(text[:at]) if end < 0 else text[: end + 1]


def killed_after(chance, told, sync):
    """A session goes on with the log of so many entries, and is killed at a moment of many commits. Gives how many of them it answered, and
    how many were sent."""
    planner = Planner(*SERVE, "--sync", sync, preexec_fn=without_core)
    planner.ask(b"version\n", b"version %d\n" % told)
    alone = chance.randrange(4)
    for number in range(told, told + alone):
        planner.ask(edits(number + 1)[0][-1] + b"\n", b"version %d\n" % (number + 1))
    waiting = edits(told + alone + chance.randrange(12))[0][told + alone:]
    planner.send(b"".join(it + b"\n" for it in waiting))
    time.sleep(chance.uniform(0, 0.004) if chance.randrange(4) else 0)
    planner.process.send_signal(signal.SIGKILL)
    status, heard = planner.end()
    answered = heard.count(b"\n")
    want("the end", (status, heard.decode()), (-signal.SIGKILL, answers(told + alone + 1, told + alone + answered)))
    return alone + answered, alone + len(waiting)


def killed_with_a_log():
    """Of 200 sessions that are killed each commit that was answered is there, once, in its order, and no other but those that were sent."""
    put("wide", WIDE)
    chance, told = random.Random(67), 0
    for number in range(KILLS):
        if number % 20 == 0:
            remove("log")
            told = 0
        answered, sent = killed_after(chance, told, "off" if number % 40 >= 30 else "on")
        there = entries_in(whole_of(bytes_of("log")))
        want("whether what was answered is there, and no more than was sent", told + answered <= len(there) <= told + sent, True)
        want("what is there", there, edits(len(there))[1])
        told = len(there)
    text = bytes_of("log")
    is_run(SERVE, b"version\n", (0, f"version {told}\n", tear_note(len(text) - len(whole_of(text)))))
    remove("log", "wide")


def stopped_with_a_log():
    """A session that is stopped while a commit is gathered ends by its signal: what was answered is there, and what was gathered isn't."""
    put("wide", WIDE)
    lines, entries = edits(len(SIGNALS))
    for count, (how, line) in enumerate(zip(SIGNALS, lines)):
        planner = Planner(*SERVE, preexec_fn=without_core)
        planner.ask(line + b"\n", b"version %d\n" % (count + 1))
        planner.ask(b"begin\nwatch map\nopen 8,0\n", b"base %d\nkept\nkept\n" % (count + 1))
        planner.process.send_signal(how)
        want("the end", planner.end_all(), (-how, b"", b""))
        want("the log", bytes_of("log"), log_of(entries[:count + 1]))
    remove("log", "wide")


def tests():
    for test in (killed_with_a_log, stopped_with_a_log):
        yield test.__name__, test
