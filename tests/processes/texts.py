"""The texts that runs are given and answered: maps, scenarios, journals, scripts, reports, all written by hand."""

MAP = b"type octile\nheight 1\nwidth 3\nmap\n...\n"
SCEN = b"version 1\n0\tm\t3\t1\t0\t0\t2\t0\t2\n"
JOURNAL = b"journal 2\nmode stay\nentry 0 0 0 1\npath 0 0,0 1,0 2,0\nend 1\n"
ONE_ENTRY = b"journal 2\nmode stay\nentry 0 0 0 1\nagent 0 0,0 2,0\nend 1\n"
ADD = b"agent 0 0,0 2,0\n"

# The files that runs name. `none` is never written.
FILES = {
    "m": MAP,
    "s": SCEN,
    "j": JOURNAL,
    "p": b"path 0 0,0 1,0 2,0\n",
    "p_two": b"path 0 0,0\npath 1 0,0\n",
    "one": b"agent 0 0,0 0,0\n",
    "two": b"agent 1 2,0 2,0\n",
    "meeting": b"agent 0 1,0 1,0\nagent 1 0,0 1,0\npath 1 0,0 1,0\n",
    "mixed": b"# ten lines are accepted, three refused, four bad\n\nbegin\nwatch map\nagent 5 1,0 1,0\ncommit\nversion\nreport\ndistance 5 0,0\n"
             b"solves vertex\ncancel\ndrop 9\npath 5 0,0\ndistance 9 0,0\nfly\npath x\nwatch map\nbegin\ncancel",
    "none_at_all": b"",
    "twice": b"agents=1\nagents=1\n",
    "long": b"agent 0 0,0 0,0\n" + b"\n" * 1000000,
    "map_octile": b"type tile\n",
    "map_height": b"type octile\nheight x\nwidth 3\nmap\n...\n",
    "map_header": b"type octile\nheight 1\nwide 3\n",
    "map_word": b"type octile\nheight 1\nwidth 3\nmaps\n...\n",
    "map_size": b"type octile\nheight 0\nwidth 3\nmap\n",
    "map_wide": b"type octile\nheight 1\nwidth 2049\nmap\n",
    "map_area": b"type octile\nheight 2048\nwidth 513\nmap\n",
    "map_short": b"type octile\nheight 1\nwidth 3\nmap\n..\n",
    "map_long": b"type octile\nheight 1\nwidth 3\nmap\n....\n",
    "map_letter": b"type octile\nheight 1\nwidth 3\nmap\n.x.\n",
    "map_missing": b"type octile\nheight 2\nwidth 3\nmap\n...\n",
    "map_extra": MAP + b"more\n",
    "scen_version": b"version 2\n",
    "scen_fields": b"version 1\n0 m 3 1 0 0 2 0\n",
    "scen_number": b"version 1\n0 m 3 1 0 -1 2 0 2\n",
    "scen_size": b"version 1\n0\tm\t4\t1\t0\t0\t2\t0\t2\n",
    "scen_outside": b"version 1\n0 m 3 1 3 0 2 0 2\n",
    "journal_line": JOURNAL.replace(b"entry 0 0", b"entry 00 0"),
    "journal_mode": JOURNAL.replace(b"stay", b"disappear"),
    "journal_entry": JOURNAL.replace(b"1,0 2,0", b"2,0"),
    "journal_early": JOURNAL[:JOURNAL.index(b"end")],
    "journal_cut": JOURNAL[:-1],
    "journal_behind": JOURNAL + b"\n",
    "journal_second": JOURNAL.replace(b"end 1", b"entry 0 1 0 1\ndrop 9\nend 2"),
    "journal_two": JOURNAL.replace(b"end 1", b"entry 0 1 0 1\ndrop 0\nend 2"),
}

EMPTY = "agents 0\nconflicts 0\nblocked 0\nsum 0\nmakespan 0\nbounds 0\ngap 0\nend\n"
ARRIVED = "agents 1\nagent 0 settle 2 goal yes bound 2 gap 0\nconflicts 0\nblocked 0\nsum 2\nmakespan 2\nbounds 2\ngap 0\nend\n"
RESTING = "agents 1\nagent 0 settle 0 goal no bound 2 gap none\nconflicts 0\nblocked 0\nsum none\nmakespan none\nbounds 2\ngap none\nend\n"
TWO = ("agents 2\nagent 0 settle 0 goal yes bound 0 gap 0\nagent 1 settle 0 goal yes bound 0 gap 0\nconflicts 0\nblocked 0\nsum 0\n"
       "makespan 0\nbounds 0\ngap 0\nend\n")

# One agent rests at its goal, and another comes to that cell; only in mode stay somebody is there to be met and followed.
MEETING = b"agent 0 1,0 1,0\nagent 1 0,0 1,0\npath 1 0,0 1,0\nreport\n"
COMMITS = "version 1\nversion 2\nversion 3\nversion 3\n"
MET = "agents 2\nagent 0 settle 0 goal yes bound 0 gap 0\nagent 1 settle 1 goal yes bound 1 gap 0\n"
TAIL = "blocked 0\nsum 1\nmakespan 1\nbounds 1\ngap 0\nend\n"
STAYED = MET + "conflicts 2\nparked 1 0 1 1,0\nfollow 0 1 0 1,0\n" + TAIL
LEFT = MET + "conflicts 0\n" + TAIL
