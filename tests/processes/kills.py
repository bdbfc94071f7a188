"""Sessions that are stopped by a signal, while they save too."""
import os
import re
import resource
import signal
import subprocess
import time

from .hosting import Hosted
from .running import PATIENCE, Planner, bytes_of, is_run, put, remove, run, start, want
from .texts import JOURNAL, ONE_ENTRY

LAST = re.compile(rb"^end (\d+)\n\Z", re.MULTILINE)


SIGNALS = (signal.SIGTERM, signal.SIGINT, signal.SIGHUP, signal.SIGQUIT, signal.SIGKILL)


def without_core():
    """What is started leaves no picture of its memory behind."""
    resource.setrlimit(resource.RLIMIT_CORE, (0, 0))


def stopped():
    """A session that is stopped by a signal ends by it."""
    planner = Planner("serve", "--map", "m")
    planner.ask(b"version\n", b"version 0\n")
    planner.process.send_signal(signal.SIGTERM)
    want("the end", planner.end(), (-signal.SIGTERM, b""))


def killed():
    """A session that is killed leaves the file as it was."""
    put("kept", JOURNAL)
    for how in SIGNALS:
        words = ["serve", "--map", "m", "--scen", "s", "--agents", "1", "--journal", "kept", "--save", "kept"]
        planner = Planner(*words, preexec_fn=without_core)
        planner.ask(b"version\n", b"version 1\n")
        planner.ask(b"drop 0\n", b"version 2\n")
        planner.process.send_signal(how)
        want("the end", planner.end(), (-how, b""))
        want("the file", bytes_of("kept"), JOURNAL)
    want("what is left", left(), [".kept.0.mapf-new"])
    is_run(["serve", "--map", "m", "--save", "kept"], b"", (0, "", ""))
    want("what is left behind the next session", left(), [])
    remove("kept")


def killed_host():
    """A host that is killed leaves the file as it was, whatever its planners have committed."""
    put("kept", ONE_ENTRY)
    for how in SIGNALS:
        with Hosted(["east"], "--journal", "kept", "--save", "kept", preexec_fn=without_core) as hosted:
            east, = hosted.seats()
            east.ask(b"drop 0", b"version 2")
            hosted.operator.process.send_signal(how)
            want("the end", hosted.end(), (-how, b"", b""))
            want("what the planner hears", east.hear(), None)
            east.close()
        want("the file", bytes_of("kept"), ONE_ENTRY)
    want("what is left", left(), [".kept.0.mapf-new"])
    is_run(["serve", "--map", "m", "--save", "kept"], b"", (0, "", ""))
    want("what is left behind the next session", left(), [])
    remove("kept")


def left():
    """The temporary files of `kept`."""
    return [it for it in os.listdir() if it.startswith(".kept.")]


def is_whole(file):
    """The file is a journal, which is read; gives how many entries it has."""
    last = LAST.search(bytes_of(file))
    want("whether the file is whole", last is not None, True)
    status, _, complained = run(["audit", "--map", "m", "--journal", file, "--workers", "1"])
    want("standard error", complained, "")
    want("the status", status, 0)
    return last.group(1)


def killed_while_saving():
    """Sessions are killed at many moments of their end: the file is the journal before or after, whole, and is read."""
    lines = b"".join(b"%s 0,0\n" % (b"close", b"open")[n % 2] for n in range(20000))
    for moment in range(24):
        put("kept", ONE_ENTRY)
        process = start(["serve", "--map", "m", "--journal", "kept", "--save", "kept"], stdout=subprocess.DEVNULL, stderr=subprocess.DEVNULL)
        process.stdin.write(lines[: 10000 * (moment % 3 + 1)])
        process.stdin.close()
        time.sleep(moment * 0.004)
        process.kill()
        process.wait(PATIENCE)
        is_whole("kept")
    remove("kept", *left())


def room_for(size):
    """Files may have so many bytes, and whoever writes more is killed by the system."""
    def limit():
        resource.setrlimit(resource.RLIMIT_FSIZE, (size, size))
        resource.setrlimit(resource.RLIMIT_CORE, (0, 0))
        signal.signal(signal.SIGXFSZ, signal.SIG_DFL)
    return limit


def killed_within_a_write():
    """The new journal is broken off at one of its bytes: the file is the one before; the next session removes the rest."""
    words = ["serve", "--map", "m", "--journal", "kept", "--save", "kept"]
    for size in (0, 1, 30, len(ONE_ENTRY), len(ONE_ENTRY) + 10):
        put("kept", ONE_ENTRY)
        status, said, complained = run(words, b"drop 0\n", preexec_fn=room_for(size))
        want("what it does", (status, said, complained), (-signal.SIGXFSZ, "version 2\n", ""))
        want("the file", bytes_of("kept"), ONE_ENTRY)
        whole = ONE_ENTRY.replace(b"end 1", b"entry 0 1 0 1\ndrop 0\nend 2")
        want("the temporary file", bytes_of(".kept.0.mapf-new"), whole[:size])
        want("what the next one does", run(words, b"drop 0\n"), (0, "version 2\n", ""))
        want("the file", bytes_of("kept"), whole)
        want("what is left", left(), [])
    remove("kept")


def tests():
    for test in (stopped, killed, killed_host, killed_while_saving, killed_within_a_write):
        yield test.__name__, test
