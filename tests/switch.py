"""Plants wrong bodies in a copy of the program, each behind a switch, and builds that once, without a proof.

The switch is a variable of the environment, which holds the name of the wrong body that is to run; where none is named
the program is the right one. A second variable has the program print what its words are read as, in place of obeying
them, as the program of crates/demo_texts tells it. A third has it run a test of crates/test_desks, which makes calls that it doesn't.
"""
import os
import re
import shutil
import subprocess
import tempfile
import time

from wrong_body import refused_by_tests

TOP = os.path.dirname(os.path.dirname(os.path.abspath(__file__)))
PROGRAM, READERS, CALLERS = "mapf_desk", "desk_cli", "test_desks"
# The crates that have wrong bodies which tests refuse, the program and what stands below it.
CRATES = (PROGRAM, "desk_io", "atomic_save", "log_file", "desk_log", READERS, "desk_session", "single_runs", "shared_runs", "solver_check")
WRONG, TOLD, TRIED = "MAPF_DESK_WRONG", "MAPF_DESK_TOLD", "MAPF_DESK_TRIED"
BEGIN, END = "‹", "›"

SWITCH = """//! Which wrong body runs.

/// Whether a variable of the environment has that value.
pub fn has(variable: &[u8], value: &[u8]) -> bool {
    let mut held = [0u8; 64];
    let count = os::env(variable, &mut held);
    match held.get(..count) {
        Some(text) => text == value,
        None => false,
    }
}

/// Whether the wrong body of that name runs.
pub fn is_wrong(name: &[u8]) -> bool {
    has(b"%s", name)
}
""" % WRONG

# Where the program's main function begins, and what it does with its words.
MAIN = "fn main(host: HostRuntime) -> ExitCode {"
READS = "    let (words, verbose) = match read_words(alloc, given.leak()) {"
TELLS = """    let asked = read_words(alloc, given.leak());
    if switch::has(b"%s", b"1") {
        let mut text = String::new(alloc);
        if telling::put_asked(&mut text, &asked).is_ok() {
            let _told = println!(&rt; "{text}");
        }
        return ExitCode::SUCCESS;
    }
    let (words, verbose) = match asked {""" % TOLD
# A test that takes what it may do, and what it may.
TEST = re.compile(r"#\[test\]\nfn (\w+)\(rt: HostRuntime\)")
MAY = "AllocGlobal + std::process::Abort + std::thread::Threads + std::sync::Wait + Sync"
CALLS = """
    if switch::has(b"%s", b"%s") {
        %s(&host);
        return ExitCode::SUCCESS;
    }"""


def read(path):
    with open(path) as file:
        return file.read()


def write(path, text):
    with open(path, "w") as file:
        file.write(text)


def place(text, old, file):
    """Where the marked part of `old` stands in a text, which has `old` once; the whole, where no part is marked."""
    plain = old.replace(BEGIN, "").replace(END, "")
    if text.count(plain) != 1:
        raise ValueError(f"{file} has {text.count(plain)} times {plain!r}")
    at = text.index(plain)
    if BEGIN not in old:
        return at, at + len(plain)
    return at + old.index(BEGIN), at + old.index(END) - 1


def planted(text, bodies, file):
    """The text with the wrong bodies, each behind its switch; those of one place stand one behind the other."""
    places = {}
    for body in bodies:
        for _, old, new in body.pairs:
            places.setdefault(place(text, old, file), []).append((body.name, new))
    end = len(text)
    for (at, to), wrong in sorted(places.items(), reverse=True):
        if to > end:
            raise ValueError(f"{file}: {wrong[0][0]} is planted within another")
        tests = " else ".join(f'if crate::switch::is_wrong(b"{name}") {{ {new} }}' for name, new in wrong)
        text, end = f"{text[:at]}({tests} else {{ {text[at:to]} }}){text[to:]}", at
    return text


def plant(top, crate):
    """Plants in a crate the wrong bodies that tests refuse; its root file gets the module of the switch."""
    folder, bodies = f"{top}/crates/{crate}", refused_by_tests(crate)
    for file in sorted({path for it in bodies for path, _, _ in it.pairs}):
        write(f"{folder}/{file}", planted(read(f"{folder}/{file}"), [it for it in bodies if it.pairs[0][0] == file], file))
    write(f"{folder}/src/switch.rt", SWITCH)
    root = f"{folder}/src/{'main' if crate == PROGRAM else 'lib'}.rt"
    write(root, read(root).replace("\nmod ", "\nmod switch;\nmod ", 1))


def row(line, called):
    """A line of crates.txt, with what wrong bodies call, and in the program's what the tests of CALLERS call."""
    name, _, below = line.partition(":")
    more = [it for it in called if it not in below.split()] if name == PROGRAM else []
    return " ".join([line, "os", *more]) if name in CRATES else line


def add(source, files, more):
    """Adds to the program modules by their files, and to its main function what it does first."""
    names = [os.path.basename(it).removesuffix(".rt") for it in files]
    for name, file in zip(names, files):
        write(f"{source}/{name}.rt", TEST.sub(r"pub fn \1<R: %s>(rt: &R)" % MAY, read(file)).replace("&rt", "rt"))
    text = read(f"{source}/main.rt")
    if text.count(READS) != 1 or text.count(MAIN) != 1:
        raise ValueError("main.rt doesn't read its words as it did")
    text = text.replace(READS, TELLS).replace(MAIN, MAIN + more)
    write(f"{source}/main.rt", text.replace("\nmod ", "".join(f"\nmod {it};" for it in names) + "\nmod ", 1))


def copy(top, tests):
    """A copy of the sources, whose program can tell what its words are read as, and run those tests of CALLERS."""
    skip = shutil.ignore_patterns("out", "must-fail")
    shutil.copytree(f"{TOP}/crates", f"{top}/crates", ignore=skip)
    shutil.copy2(f"{TOP}/HANDLES", top)
    lines = read(f"{TOP}/crates.txt").splitlines()
    called = next(it for it in lines if it.startswith(f"{CALLERS}:")).split()[1:]
    write(f"{top}/crates.txt", "".join(f"{row(it, called)}\n" for it in lines))
    files = [f"{top}/crates/demo_texts/src/{it}.rt" for it in ("telling", "values")]
    modules = sorted({"build", *(it.partition("::")[0] for it in tests)} if tests else [])
    files += [f"{top}/crates/{CALLERS}/src/tests/{it}.rt" for it in modules]
    add(f"{top}/crates/{PROGRAM}/src", files, "".join(CALLS % (TRIED, it, it) for it in tests))


def build(top, to):
    """Builds the program, and keeps it: `rt try` keeps no file, so it is copied while it waits for its map. Gives what went wrong.

    Its map is a pipe with a name, which is opened for writing once the program reads it.
    """
    made, pipe = f"{top}/made", f"{top}/map"
    os.mkdir(made)
    os.mkfifo(pipe)
    words = ["rt", "try", "--", "serve", "--map", pipe]
    with tempfile.TemporaryFile("w+", errors="replace") as said:
        how = {"stdin": subprocess.DEVNULL, "stdout": said, "stderr": said, "env": {**os.environ, "TMPDIR": made}}
        building = subprocess.Popen(words, cwd=f"{top}/crates/{PROGRAM}", **how)
        while building.poll() is None and not os.path.exists(to):
            keep(pipe, made, to)
            time.sleep(0.1)
        building.wait()
        said.seek(0)
        return None if os.path.exists(to) else f"no program was built: {said.read()[-900:]}"


def keep(pipe, made, to):
    """Copies the program that waits at the pipe, if one does, and lets it go on."""
    try:
        waiting = os.open(pipe, os.O_WRONLY | os.O_NONBLOCK)
    except OSError:
        return
    for at, _, files in os.walk(made):
        for file in files:
            if os.access(f"{at}/{file}", os.X_OK):
                shutil.copy2(f"{at}/{file}", to)
    os.close(waiting)
