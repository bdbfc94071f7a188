"""The worked examples of tests/worked: each session at every level that one reaches, by levels.py, and runs of the program's words."""
from . import journals
from .examples import examples
from .levels import at, levels
from .readings import are_read
from .running import is_run, put, remove, want

WORKERS = (1, 2, 3, 4, 64)
# Journals that are read and upgraded, and that no desk takes: an entry ahead of all, and one of no edits.
TAKEN_BY_NO_DESK = {"journal_of_the_greatest_words", "journal_of_4096_watches"}


def ending(printed):
    """The end of a run that prints that: the status, standard output, and standard error, to which the line of a fault goes."""
    at = printed.rfind("mapf_desk: ")
    return (0, printed, "") if at < 0 else (2, printed[:at], printed[at:])


def scene_words(example):
    """The words of the example's scene, whose files are put here."""
    words = []
    for key, word in (("map", "--map"), ("scenario", "--scen")):
        text = example.map() if key == "map" else example.text(key)
        if text is not None:
            put(f"worked_{key}", text)
            words += [word, f"worked_{key}"]
    return words + [it for key in ("agents", "mode") if example.value(key) for it in (f"--{key}", example.value(key))]


def served(example, words, printed):
    """A session over files, or behind a map. Where the example says how many lines it has, a bad one behind them tells it."""
    words, given = ["serve", *words], example.text("input")
    if example.value("limit"):
        words += ["--limit", example.value("limit")]
    is_run(words, given, ending(printed))
    if example.value("lines"):
        is_run(words, given + b"!\n", (0, f"{printed}bad {int(example.value('lines')) + 1} word\n", ""))


def drilled(example, words, printed):
    scripts = example.texts("script")
    names = [f"worked_script{number}" for number in range(len(scripts))]
    for name, text in zip(names, scripts):
        put(name, text)
    is_run(["drill", *words, *names], b"", ending(printed))
    remove(*names)


def audited(example, words, printed):
    """An audit by any number of workers, of a journal if there is one."""
    journal = example.text("journal")
    if journal is not None:
        put("worked_journal", journal)
        words = [*words, "--journal", "worked_journal"]
    for workers in WORKERS:
        is_run(["audit", *words, "--workers", str(workers)], b"", ending(printed))
    remove("worked_journal")


def is_upgraded(name, text, printed):
    """A session over the journal saves it as version 2, where a desk takes it, or has the fault, which the readers have too."""
    fault = printed.removeprefix("mapf_desk: journal: ").rstrip("\n")
    mode = printed.split("\n")[1].removeprefix("mode ") if fault.startswith("journal 2") else "stay"
    wanted = ending("mapf_desk: journal: entry 1 refused\n" if name in TAKEN_BY_NO_DESK else printed)
    saved = printed.encode() if wanted[0] == 0 else None
    with at("saved"):
        want("the end", journals.opened(text, mode), ((wanted[0], "", wanted[2]), saved))
    with at("read and upgraded"):
        are_read([("journal", text, f"{mode}\n{printed}" if fault.startswith("journal 2") else f"{fault}\n{fault}")])


def upgraded(example, _, printed):
    journals.with_scene(lambda: is_upgraded(example.name, example.text("upgrade"), printed))


RUNS = [("input", served), ("upgrade", upgraded), ("script", drilled)]


def is_as_written(example):
    example.are_known()
    words = scene_words(example)
    if example.text("session") is not None:
        levels(example, words)
    else:
        run = next((run for key, run in RUNS if example.text(key) is not None), audited)
        run(example, words, example.wanted("printed"))
    remove("worked_map", "worked_scenario")


def tests():
    for example in examples():
        yield f"worked: {example.name}", lambda example=example: is_as_written(example)
