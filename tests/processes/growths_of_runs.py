"""Want of memory at whole runs over files, growth by growth, and at the starts of their threads."""
import os
import subprocess

from .growing import FULL, LARGE, fed, fed_by_a_pipe, fed_to, growths_apart, served, until_enough
from .journals import FIRST, SECOND
from .running import Program, bytes_of, put, remove, want
from .texts import ARRIVED, EMPTY, RESTING, SCEN


def refusals(words, text, whole, lawful=((2, "", FULL),), given=b""):
    """How often the run is refused until it does the whole; each of the lawful ends comes, and no other."""
    seen = until_enough(words, lambda pages: fed(words, text, pages, given=given), whole)
    want("what comes for want of memory", set(seen), set(lawful))
    return len(seen)


def report_of_a_scenario():
    """At first no session begins, then its one line is refused, and then it is answered."""
    words = ["serve", "--map", "m", "--scen", "fed", "--agents", "1"]
    with fed_by_a_pipe():
        refusals(words, SCEN, (0, "version 0\n" + RESTING, ""), [(2, "", FULL), (0, "refused memory\n", "")], b"report\n")


def empty_report():
    """The report of no agents takes little memory or none, and the map before it some."""
    given, whole = b"type octile\nheight 3\nwidth 3\nmap\n...\n...\n...\nreport\n", (0, "version 0\n" + EMPTY, "")
    with growths_apart():
        seen = until_enough("an empty report", lambda pages: served([], b"", given, b"", pages), whole)
    want("what comes for want of memory", set(seen) - {(0, "refused memory\n", "")}, {(2, "", FULL)})


def replay_in_another_mode():
    """A journal of one entry is read and committed, or refused for its mode or its second entry, once there is memory; else nothing is saved."""
    words = ["serve", "--map", "m", "--scen", "four", "--agents", "4", "--journal", "fed", "--save", "kept"]
    ahead = FIRST.replace(b"end 1", b"entry 1 5 0 1\ngoal 3 1,0\nend 2")
    put("four", b"version 1\n" + b"0 m 3 1 0 0 2 0 2\n" * 4)
    with fed_by_a_pipe():
        for text, mode, whole in ((FIRST, "stay", (0, "", "")), (SECOND, "stay", (0, "", "")), (SECOND, "disappear", fault("mode differs")),
                                  (FIRST, "disappear", fault("mode differs")), (ahead, "stay", fault("entry 2 refused"))):
            remove("kept")
            want("whether it is refused many times", refusals([*words, "--mode", mode], text, whole) > 5, True)
            want("what is saved", os.path.exists("kept") and bytes_of("kept"), SECOND if whole[0] == 0 else False)
    remove("four", "kept")


def upgraded(text, pages):
    """What the program of crates/demo_texts tells of a journal: the mode that is read, and the text that it is upgraded to."""
    process = subprocess.Popen([Program.readings], stdout=subprocess.PIPE, stderr=subprocess.PIPE)
    return fed_to(process, "texts.txt", b"journal %d\n%s" % (len(text), text), pages)


def journals_read_and_upgraded():
    """Where the text itself can be held, each of both is refused at first."""
    lawful = {(1, "", "Error: memory allocation failed\n"), (0, "out of memory\nout of memory\n", ""), (0, "stay\nout of memory\n", "")}
    with fed_by_a_pipe("texts.txt"):
        for text in (FIRST, SECOND):
            seen = until_enough(text, lambda pages, text=text: upgraded(text, pages), (0, f"stay\n{SECOND.decode()}\n", ""))
            want("what comes for want of memory", set(seen), lawful)


def fault(text):
    return 2, "", f"mapf_desk: journal: {text}\n"


def audited(words, text, out):
    """An audit is refused until there is memory for its growths and the small stacks of its threads; with large ones a thread isn't started then."""
    with fed_by_a_pipe():
        pages = refusals(words, text, (0, out, ""))
        want("what comes where there is no room for a thread", fed(words, text, pages, LARGE), (2, "", FULL))


def audit_of_a_replayed_journal():
    text = b"journal 1\nentry 0 0 0 1\npath 0 0,0 1,0 2,0\nend 1\n"
    audited(["audit", "--map", "m", "--scen", "s", "--agents", "1", "--journal", "fed", "--workers", "4"], text, "version 1\n" + ARRIVED)


RING = [(0, "0,0", "1,0"), (1, "1,0", "1,1"), (2, "1,1", "0,1"), (3, "0,1", "0,0")]  # each agent's goal is the next one's cell
ROUND = ("version 1\nagents 4\n" + "".join(f"agent {it} settle 1 goal yes bound 1 gap 0\n" for it in range(4)) + "conflicts 5\nfollow 0 0 1 1,0\n"
         "follow 0 1 2 1,1\nfollow 0 2 3 0,1\nfollow 0 3 0 0,0\ncycle 0 0 1 2 3\nblocked 0\nsum 4\nmakespan 1\nbounds 4\ngap 0\nend\n")


def ring_of_four_by_one_and_by_four():
    """The pieces of an audit find no memory either, each in its thread."""
    put("square", b"type octile\nheight 2\nwidth 2\nmap\n..\n..\n")
    edits = "".join(f"{kind} {agent} {here} {there}\n" for kind in ("agent", "path") for agent, here, there in RING)
    for workers in ("1", "4"):
        words = ["audit", "--map", "square", "--journal", "fed", "--workers", workers]
        audited(words, f"journal 2\nmode stay\nentry 0 0 0 8\n{edits}end 1\n".encode(), ROUND)
    remove("square")


AT_GOAL = "agent {} settle 0 goal yes bound 0 gap 0\n"


def counted(name, accepted, refused):
    return f"  {name}: {accepted} accepted, {refused} refused, 0 bad\n"


def drilled(*accepted):
    """What a drill tells, where of each of two scripts with one line so many lines were accepted and the others found no memory."""
    agents = "".join(AT_GOAL.format(agent) for agent, it in enumerate(accepted) if it)
    counts = "".join(counted(name, it, 1 - it) for name, it in zip(("one", "fed"), accepted))
    tail = "conflicts 0\nblocked 0\nsum 0\nmakespan 0\nbounds 0\ngap 0\nend\naudit same\n"
    return 0, f"version {sum(accepted)}\nagents {sum(accepted)}\n{agents}{tail}", counts


def drill_of_two_scripts_in_want_of_memory():
    """Both scripts are accepted at last; before that the drill, a thread or a script's line finds no memory. Scripts that began are counted."""
    words, text = ["drill", "--map", "m", "-v", "one", "fed"], b"agent 1 2,0 2,0"
    several = [drilled(1, 1), drilled(1, 0), drilled(0, 1), drilled(0, 0)]
    first, second = ([counted(name, *it) for it in ((1, 0), (0, 1), (0, 0))] for name in ("one", "fed"))
    unserved = {(2, "", FULL + one + other) for one in ["", *first] for other in ["", *second]}
    with fed_by_a_pipe():
        seen = until_enough("a drill", lambda pages: fed(words, text, pages), several[0])
        want("what else comes for want of memory", set(seen) - set(several) - unserved, set())
        want("whether the drill found no memory", (2, "", FULL) in seen, True)
        want("what comes where there is no room for a thread", fed(words, text, len(seen), LARGE), (2, "", FULL))


def tests():
    for test in (report_of_a_scenario, empty_report, replay_in_another_mode, journals_read_and_upgraded, audit_of_a_replayed_journal,
                 ring_of_four_by_one_and_by_four, drill_of_two_scripts_in_want_of_memory):
        yield test.__name__, test
