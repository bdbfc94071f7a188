"""Runs that are done: status 0, standard output to the byte, nothing on standard error."""
from .running import is_answered
from .texts import ADD, ARRIVED, COMMITS, EMPTY, LEFT, MAP, MEETING, RESTING, STAYED, TWO

FULL = "version 1\nrefused journal-full 1\n"
TWICE = b"agent 0 0,0 2,0\nagent 1 1,0 1,0\n"

# Name, words, standard input, standard output.
ANSWERS = [
    ("no_words", "", MAP + b"report\n", "version 0\n" + EMPTY),
    ("serve_with_no_words", "serve", MAP + b"report\n", "version 0\n" + EMPTY),
    ("last_line_without_its_end", "serve --map m", b"version", "version 0\n"),
    ("no_lines", "serve --map m", b"", ""),
    ("lines_count_from_one_behind_a_map", "", MAP + b"x\n", "bad 1 word\n"),
    ("agents_of_a_scenario", "serve --map m --scen s --agents 1", b"report\n", "version 0\n" + RESTING),
    ("no_agents_of_a_scenario", "serve --map m --scen s", b"report\n", "version 0\n" + EMPTY),
    ("no_agents_by_the_word", "serve --map m --agents 0", b"report\n", "version 0\n" + EMPTY),
    ("scenario_for_a_map_on_standard_input", "serve --scen s --agents 1", MAP + b"report\n", "version 0\n" + RESTING),
    ("limit_of_one", "serve --map m --limit 1", TWICE, FULL),
    ("limit_behind_an_equals_sign", "serve --limit=1 --map=m", TWICE, FULL),
    ("limit_of_two", "serve --map m --limit 2", TWICE, "version 1\nversion 2\n"),
    ("stays_where_no_mode_is_named", "serve --map m", MEETING, COMMITS + STAYED),
    ("stays", "serve --map m --mode stay", MEETING, COMMITS + STAYED),
    ("disappears", "serve --map m --mode disappear", MEETING, COMMITS + LEFT),
    ("disappears_on_a_typed_map", "serve --mode disappear", MAP + MEETING, COMMITS + LEFT),
    ("journal_of_a_session", "serve --map m --scen s --agents 1 --journal j", b"version\nreport\n", "version 1\nversion 1\n" + ARRIVED),
    ("journal_for_a_map_on_standard_input", "serve --scen s --agents 1 --journal j", MAP + b"report\n", "version 1\n" + ARRIVED),
    ("journal_counts_in_the_limit", "serve --map m --scen s --agents 1 --journal j --limit 1", b"drop 0\n", "refused journal-full 1\n"),
    ("journal_up_to_the_limit", "serve --map m --scen s --agents 1 --journal journal_two --limit 2", b"version\n", "version 2\n"),
    ("nothing_is_stale_in_a_session", "serve --map m", b"begin\nwatch map\n" + ADD + b"commit\nopen 0,0\n",
     "base 0\nkept\nkept\nversion 1\nversion 2\n"),
    ("more_is_told_of_faults_alone", "serve --map m --verbose", b"version\nx\n", "version 0\nbad 2 word\n"),
    ("audit_of_a_map", "audit --map m", b"", "version 0\n" + EMPTY),
    ("audit_reads_no_standard_input", "audit --map m", b"x\n", "version 0\n" + EMPTY),
    ("audit_of_a_scenario", "audit --map m --scen s --agents 1", b"", "version 0\n" + RESTING),
    ("audit_of_a_journal", "audit --map m --scen s --agents 1 --journal j --workers 1", b"", "version 1\n" + ARRIVED),
    ("audit_by_64_workers", "audit --map m --scen s --agents 1 --journal j --workers 64", b"", "version 1\n" + ARRIVED),
    ("audit_of_a_journal_in_mode_disappear", "audit --map m --scen s --agents 1 --mode disappear --journal journal_mode", b"",
     "version 1\n" + ARRIVED),
    ("audit_of_two_entries", "audit --map m --scen s --agents 1 --journal journal_two", b"", "version 2\n" + EMPTY),
    ("drill_of_two_scripts", "drill --map m one two", b"", "version 2\n" + TWO + "audit same\n"),
    ("drill_by_one_worker", "drill --map m --workers 1 one two", b"", "version 2\n" + TWO + "audit same\n"),
    ("drill_by_64_workers", "drill --map m --workers 64 two one", b"", "version 2\n" + TWO + "audit same\n"),
    ("drill_behind_two_signs", "drill --map m -- one two", b"", "version 2\n" + TWO + "audit same\n"),
    ("drill_of_255_scripts", "drill --map m" + " none_at_all" * 254 + " one", b"",
     "version 1\n" + TWO.replace("agents 2", "agents 1").replace("agent 1 settle 0 goal yes bound 0 gap 0\n", "") + "audit same\n"),
    ("drill_of_a_scenario", "drill --map m --scen s --agents 1 none_at_all", b"", "version 0\n" + RESTING + "audit same\n"),
    ("drill_where_agents_stay", "drill --map m meeting", b"", "version 3\n" + STAYED + "audit same\n"),
    ("drill_where_agents_disappear", "drill --map m --mode disappear meeting", b"", "version 3\n" + LEFT + "audit same\n"),
    ("no_more_is_told_of_an_audit", "audit --map m -v", b"", "version 0\n" + EMPTY),
]


def tests():
    for name, words, given, out in ANSWERS:
        yield name, lambda words=words, given=given, out=out: is_answered(words.split(), given, out)
