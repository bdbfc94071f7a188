"""The rows of the table of faults, in its order: status 2, one line on standard error, nothing on standard output.

Of the table's rows these are elsewhere: mistakes in the words and words that aren't text (words.py), help that isn't
taken and faults of reading and writing (streams.py), those of `check` and of the paths that it reads (checks.py, fleets.py),
bounds and large files (bounds.py), a journal that can't be saved (saving.py, stepping.py), want of memory (memory.py).
Three rows can't be reached by words and files:
- `scen: too many agents`: `--agents` takes 8,192 at most, and a scene has room for as many;
- `scen: task N out of map`: a task outside the map is refused before, where the scenario is read (`scen: out of map ..`);
- `pass lost`: the passes of a drill are joined before its desk is closed, so the first one has no other beside it.
Neither can the status 1 of `audit differs`: the two reports of a drill are proved to be the same by definition.
Of the session's faults a drill's scripts can't have `read failed` or `too many bytes`, since they are read as files before.
"""
from .running import is_fault
from .texts import FILES

# Name, words, the fault's text.
FAULTS = [
    ("agents_without_scen", "serve --agents 3", "--agents needs --scen"),
    ("agents_without_scen_in_an_audit", "audit --map m --agents 1", "--agents needs --scen"),
    ("agents_without_scen_in_a_drill", "drill --map m --agents 1 one", "--agents needs --scen"),
    ("agents_before_files", "serve --map none --agents 3", "--agents needs --scen"),
    ("agents_before_files_of_an_audit", "audit --map none --agents 1", "--agents needs --scen"),
    ("agents_before_files_of_a_drill", "drill --map none --agents 1 none", "--agents needs --scen"),
    ("no_map", "serve --map none", "can't read none"),
    ("no_map_of_a_drill", "drill --map none one", "can't read none"),
    ("folder_as_a_map", "serve --map .", "can't read ."),
    ("folder_as_a_scen", "serve --map m --scen .", "can't read ."),
    ("folder_as_a_journal", "serve --map m --journal .", "can't read ."),
    ("folder_as_a_script", "drill --map m one .", "can't read ."),
    ("no_scen", "serve --map m --scen none", "can't read none"),
    ("no_scen_of_a_drill", "drill --map m --scen none one", "can't read none"),
    ("no_journal", "audit --map m --journal none", "can't read none"),
    ("no_script", "drill --map m one none", "can't read none"),
    ("map_before_scen", "audit --map none --scen nothing", "can't read none"),
    ("map_before_scen_of_a_session", "serve --map none --scen nothing", "can't read none"),
    ("map_before_scen_of_a_drill", "drill --map none --scen nothing one", "can't read none"),
    ("scen_before_journal", "audit --map m --scen none --journal nothing", "can't read none"),
    ("scen_before_journal_of_a_session", "serve --map m --scen none --journal nothing", "can't read none"),
    ("scen_before_scripts", "drill --map m --scen none nothing", "can't read none"),
    ("scripts_in_their_order", "drill --map m one none nothing", "can't read none"),
    ("files_before_what_stands_in_them", "audit --map map_size --journal none", "can't read none"),
    ("scripts_before_what_stands_in_the_map", "drill --map map_size one none", "can't read none"),
    ("no_journal_of_a_session", "serve --map m --journal none", "can't read none"),
    ("no_journal_though_it_is_to_be_saved", "serve --map m --journal none --save none", "can't read none"),
    ("journal_before_what_is_saved", "serve --map m --journal none --save nowhere/j", "can't read none"),
    ("save_in_no_folder", "serve --map m --save nowhere/j", "can't write nowhere/j"),
    ("save_in_a_file", "serve --map map_size --save m/j", "can't write m/j"),
    ("save_as_a_folder", "serve --map m --save .", "can't write ."),
    ("save_on_a_device", "serve --map m --save /dev/full", "can't write /dev/full"),
    ("save_before_what_stands_in_a_file", "serve --map map_size --save nowhere/j", "can't write nowhere/j"),
    ("save_before_a_map_on_standard_input", "serve --save nowhere/j", "can't write nowhere/j"),
    ("scripts_are_read_before_they_are_counted", "drill --map m" + " one" * 255 + " none", "can't read none"),
    ("too_many_scripts", "drill --map map_size" + " one" * 256, "too many scripts"),
    ("not_octile", "serve --map map_octile", "map: not octile"),
    ("empty_map", "serve --map none_at_all", "map: not octile"),
    ("bad_height", "serve --map map_height", "map: bad header in line 2"),
    ("bad_header", "serve --map map_header", "map: bad header in line 3"),
    ("no_word_map", "serve --map map_word", "map: bad header in line 4"),
    ("bad_size", "serve --map map_size", "map: bad size"),
    ("too_wide", "audit --map map_wide", "map: bad size"),
    ("too_many_cells", "drill --map map_area one", "map: bad size"),
    ("short_row", "serve --map map_short", "map: short row 0"),
    ("long_row", "audit --map map_long", "map: long row 0"),
    ("bad_letter", "drill --map map_letter one", "map: bad letter in row 0, column 1"),
    ("missing_row", "serve --map map_missing", "map: missing row 1"),
    ("extra_line", "serve --map map_extra", "map: extra line 6"),
    ("map_before_what_stands_in_scen", "serve --map map_extra --scen scen_version", "map: extra line 6"),
    ("bad_version", "serve --map m --scen scen_version", "scen: bad version"),
    ("field_count", "serve --map m --scen scen_fields", "scen: field count in line 2"),
    ("bad_number", "serve --map m --scen scen_number", "scen: bad number in line 2, field 6"),
    ("size_mismatch", "audit --map m --scen scen_size", "scen: size mismatch in line 2"),
    ("out_of_map", "drill --map m --scen scen_outside one", "scen: out of map in line 2, field 5"),
    ("scen_without_agents", "audit --map m --scen scen_version", "scen: bad version"),
    ("scen_before_what_stands_in_the_journal", "serve --map m --scen scen_size --journal journal_line", "scen: size mismatch in line 2"),
    ("too_few_tasks", "serve --map m --scen s --agents 2", "scen: too few tasks, 1"),
    ("too_few_tasks_of_an_audit", "audit --map m --scen s --agents 8192", "scen: too few tasks, 1"),
    ("too_few_tasks_of_a_drill", "drill --map m --scen s --agents 2 one", "scen: too few tasks, 1"),
    ("tasks_before_journal", "audit --map m --scen s --agents 2 --journal journal_line", "scen: too few tasks, 1"),
    ("tasks_before_a_journal_of_a_session", "serve --map m --scen s --agents 2 --journal journal_line", "scen: too few tasks, 1"),
    ("bad_line", "audit --map m --journal journal_line", "journal: bad line 3"),
    ("map_as_a_journal", "audit --map m --journal m", "journal: bad line 1"),
    ("journal_that_stops_too_early", "serve --map m --journal journal_early", "journal: bad line 5"),
    ("journal_whose_last_line_has_no_end", "serve --map m --journal journal_cut", "journal: bad line 5"),
    ("line_behind_a_journal", "audit --map m --journal journal_behind", "journal: bad line 6"),
    ("journal_of_a_session_that_is_none", "serve --map m --journal journal_line", "journal: bad line 3"),
    ("mode_differs", "audit --map m --scen s --agents 1 --journal journal_mode", "journal: mode differs"),
    ("mode_differs_by_the_word", "audit --map m --scen s --agents 1 --mode disappear --journal j", "journal: mode differs"),
    ("journal_of_a_session_in_another_mode", "serve --map m --scen s --agents 1 --journal journal_mode", "journal: mode differs"),
    ("entry_refused", "audit --map m --scen s --agents 1 --journal journal_entry", "journal: entry 1 refused"),
    ("entry_of_a_session_refused", "serve --map m --scen s --agents 1 --journal journal_entry", "journal: entry 1 refused"),
    ("second_entry_refused", "audit --map m --scen s --agents 1 --journal journal_second", "journal: entry 2 refused"),
    ("entry_after_the_limit", "serve --map m --scen s --agents 1 --limit 1 --journal journal_two", "journal: entry 2 refused"),
    ("script_of_too_many_lines", "drill --map m long", "too many lines"),
    ("script_of_too_many_lines_behind_another", "drill --map m two long one", "too many lines"),
]

# The maps that stand first on standard input, and their fault's text.
TYPED_MAPS = [
    ("none_at_all", "map: not octile"), ("map_octile", "map: not octile"), ("map_height", "map: bad header in line 2"),
    ("map_header", "map: bad header in line 3"), ("map_word", "map: bad header in line 4"), ("map_size", "map: bad size"),
    ("map_short", "map: short row 0"), ("map_long", "map: long row 0"), ("map_letter", "map: bad letter in row 0, column 1"),
    ("map_missing", "map: missing row 1"),
]


def typed_maps():
    """A map that is refused is told on standard error, and no line behind it is answered."""
    for file, text in TYPED_MAPS:
        is_fault([], text, FILES[file])


# Names that command a terminal or end a line, and how a fault shows them.
SHOWN = [
    (["serve", "--map", "a\nmapf_desk: b"], "can't read a?mapf_desk: b"),
    (["audit", "--map", "m", "--scen", "\x1b[2Jc\td"], "can't read ?[2Jc d"),
    (["check", "--map", "m", "--paths", "caf\u00e9\x7f"], "can't read caf???"),
    (["serve", "--map", "m", "--save", "nowhere\r/j\n"], "can't write nowhere?/j?"),
    (["host", "--map", "m", "e\x1bast", "e\x1bast"], "a planner named twice, e?ast"),
]


def names_are_shown_in_one_line():
    for words, text in SHOWN:
        is_fault(words, text)


def tests():
    for name, words, text in FAULTS:
        yield name, lambda words=words, text=text: is_fault(words.split(), text)
    yield "map_on_standard_input", lambda: is_fault([], "map: bad size", FILES["map_size"])
    yield "typed_maps", typed_maps
    yield "names_are_shown_in_one_line", names_are_shown_in_one_line
