"""What a session saves, and what is left where a save fails."""
import contextlib
import io
import itertools
import os
import resource
import shutil
import signal
import subprocess

from .running import PATIENCE, TOP, Planner, Program, bytes_of, is_answered, is_fault, is_run, put, remove, run, want
from .texts import ADD, ARRIVED, COMMITS, FILES, JOURNAL, LEFT, MAP, MEETING, ONE_ENTRY


def save(words, given, out, file):
    """A session that saves its journal, and leaves no other file behind."""
    before = set(os.listdir())
    is_answered(["serve", *words.split(), "--save", file], given, out)
    want("the files that came", set(os.listdir()) - before - {file}, set())
    return bytes_of(file)


def saved():
    """What is saved is the journal, and goes on in the next session, in one file."""
    first = save("--map m", ADD, "version 1\n", "desk")
    want("the journal", first, b"journal 2\nmode stay\nentry 0 0 0 1\nagent 0 0,0 2,0\nend 1\n")
    second = save("--map m --journal desk", b"path 0 0,0 1,0 2,0\npath 0 2,0\n", "version 2\nrefused faulty 0 not-from-start\n", "desk")
    want("the journal", second, first.replace(b"end 1", b"entry 0 1 0 1\npath 0 0,0 1,0 2,0\nend 2"))
    third = save("--map m --journal desk", b"", "", "desk")
    want("the journal with nothing added", third, second)
    is_answered(["audit", "--map", "m", "--journal", "desk"], b"", "version 2\n" + ARRIVED)
    is_answered(["serve", "--map", "m", "--journal", "desk"], b"report\n", "version 2\n" + ARRIVED)
    want("the journal that was only read", bytes_of("desk"), second)
    other = save("--map m --journal desk", b"drop 0\n", "version 3\n", "other")
    want("the last line", other.split(b"\n")[-2], b"end 3")
    want("the journal that was saved elsewhere", bytes_of("desk"), second)
    remove("desk", "other")


def saved_in_another_mode():
    text = save("--map m --mode disappear", MEETING, COMMITS + LEFT, "left")
    want("the mode", text.split(b"\n")[1], b"mode disappear")
    is_answered(["audit", "--map", "m", "--mode", "disappear", "--journal", "left"], b"", "version 3\n" + LEFT)
    is_fault(["serve", "--map", "m", "--journal", "left"], "journal: mode differs")
    remove("left")


def saved_from_a_map_on_standard_input():
    text = save("", MAP + ADD, "version 1\n", "typed")
    want("the journal", text, ONE_ENTRY)
    remove("typed")


def not_saved_where_no_session_begins():
    """A fault before the session leaves the file as it was, and makes none."""
    put("kept", JOURNAL)
    is_fault(["serve", "--map", "m", "--scen", "s", "--agents", "1", "--journal", "journal_line", "--save", "kept"], "journal: bad line 3")
    is_fault(["serve", "--save", "kept"], "map: bad size", FILES["map_size"])
    want("the file", bytes_of("kept"), JOURNAL)
    for words, fault in ((["serve", "--map", "map_octile"], "map: not octile"), (["serve"], "map: not octile"),
                         (["serve", "--map", "none"], "can't read none"),
                         (["host", "--map", "none", "nobody"], "can't read none"), (["host", "--map", "map_octile", "nobody"], "map: not octile"),
                         (["host", "--map", "m", "twice", "twice"], "a planner named twice, twice")):
        is_fault([words[0], "--save", "never", *words[1:]], fault)
        want(f"what {words} leave", [it for it in os.listdir() if it == "never" or "mapf" in it], [])
    remove("kept")


def not_saved_over_another_file():
    """A file that is no journal stays, and no session begins; an empty one makes room for what is saved, and so does each version of a journal."""
    for text in (MAP, b"journal", b"journals 2\nmode stay\nend 0\n"):
        put("kept", text)
        is_fault(["serve", "--map", "m", "--save", "kept"], "can't write kept", ADD)
        is_fault(["serve", "--map", "m", "--save", "kept", "-v"], "can't write kept\n  not a journal", ADD)
        is_fault(["host", "--map", "m", "--save", "kept", "nobody"], "can't write kept", ADD)
        want("the file", bytes_of("kept"), text)
    for text in (b"", b"journal 1\nend 0\n", JOURNAL):
        put("kept", text)
        save("--map m", ADD, "version 1\n", "kept")
    remove("kept")


def broken_session_is_saved():
    """Where the input or the output fails, what was committed before is saved."""
    words = ["serve", "--map", "m", "--save", "desk"]
    with open("/dev/full", "wb") as full:
        is_run(words, ADD, (2, "", "mapf_desk: write failed\n"), stdout=full)
    want("the journal", bytes_of("desk"), ONE_ENTRY)
    remove("desk")
    folder = os.open(".", os.O_RDONLY)
    is_run(words, b"", (2, "", "mapf_desk: read failed\n"), stdin=folder)
    os.close(folder)
    want("the journal", bytes_of("desk"), b"journal 2\nmode stay\nend 0\n")
    remove("desk")


def saved_after_a_fault():
    """Where a bound ends the session, what was committed before is saved."""
    is_fault(["serve", "--map", "m", "--save", "desk"], "too many lines", ADD + b"\n" * 1000000, "version 1\n")
    want("the journal", bytes_of("desk"), ONE_ENTRY)
    remove("desk")


def small_disk():
    """No file may have more than 20 bytes, as on a full disk."""
    signal.signal(signal.SIGXFSZ, signal.SIG_IGN)
    resource.setrlimit(resource.RLIMIT_FSIZE, (20, 20))


# Where a journal is kept that can't be written beside its file, in this order.
FOLDERS = ["/tmp", "/var/tmp", "/dev/shm"]
NUMBERS = itertools.count()


def own_name(name):
    """A name that no other file has, in those folders too."""
    return f"{name}{os.getpid()}-{next(NUMBERS)}"


def kept_in(folder, name, number=0):
    """The file that has the journal of a file of that name there."""
    return f"{folder}/{name}.{number}.mapf-kept"


def not_saved_on_a_full_disk():
    """The file is as it was, and nothing of the new one is left, where no folder takes it. Where the session has a fault too, both are
    told."""
    kept = own_name("kept")
    put(kept, JOURNAL)
    words = ["serve", "--map", "m", "--save", kept]
    is_fault(words, f"can't write {kept}", ADD, "version 1\n", preexec_fn=small_disk)
    want("the file", bytes_of(kept), JOURNAL)
    want("what is left", [it for folder in (".", *FOLDERS) for it in os.listdir(folder) if kept in it], [kept])
    _, _, complained = run([*words, "-v"], ADD, preexec_fn=small_disk)
    large, full = "  File too large (os error 27)\n", "  No space left on device (os error 28)\n"
    want("standard error", complained, f"mapf_desk: can't write {kept}\n" + large)
    for flag, first, second in (([], "", ""), (["-v"], full, large)):
        with open("/dev/full", "wb") as device:
            status, _, complained = run([*words, *flag], ADD, stdout=device, preexec_fn=small_disk)
        want("standard error", complained, f"mapf_desk: write failed\n{first}mapf_desk: can't write {kept}\n{second}")
        want("the status", status, 2)
    want("the file", bytes_of(kept), JOURNAL)
    remove(kept)


APART = ["unshare", "--map-root-user", "--mount", "sh", "-c"]  # a shell whose mounts nobody else sees


def on_a_disk(what, how, script, given, *words):
    """What a shell does in a folder that has `disk`, a file system mounted so; none where nobody may mount one, and then that is told."""
    if not shutil.which(APART[0]) or subprocess.run([*APART, "mount -t tmpfs none ."], capture_output=True).returncode != 0:
        print(f"left out: {what}, since nobody may mount one here", flush=True)
        return None
    os.mkdir("disk")
    script = f"mount -t tmpfs -o {how} none disk || exit 9; {script}"
    ran = subprocess.run([*APART, script, Program.path, *words], input=given, capture_output=True, timeout=PATIENCE)
    os.rmdir("disk")
    return ran.returncode, ran.stdout, ran.stderr.decode()


def disk_that_is_read_alone():
    """A file system that takes no file is told before a line is read."""
    ended = on_a_disk("a disk that is read alone", "ro", '"$0" serve --map m --save disk/kept -v', ADD)
    if ended:
        want("the end", ended, (2, b"", "mapf_desk: can't write disk/kept\n  Read-only file system (os error 30)\n"))


def disk_that_is_full():
    """The file is as it was, and what its disk doesn't take is kept on another."""
    name, many = own_name("kept"), 3000
    script = 'cp journal "disk/$1"; "$0" serve --map m --save "disk/$1"; status=$?; cat "disk/$1"; exit $status'
    put("journal", JOURNAL)
    ended = on_a_disk("a journal on a full disk", "size=64k", script, ADD + b"goal 0 1,0\n" * many, name)
    remove("journal")
    if ended:
        kept = kept_in(FOLDERS[0], name)
        answers = b"".join(b"version %d\n" % it for it in range(1, many + 2))
        want("the end", ended, (2, answers + JOURNAL, f"mapf_desk: can't write disk/{name}: the journal is in {kept}\n"))
        entries = b"".join(b"entry 0 %d 0 1\ngoal 0 1,0\n" % it for it in range(1, many + 1))
        want("the journal", bytes_of(kept), ONE_ENTRY.replace(b"end 1\n", entries + b"end %d\n" % (many + 1)))
        remove(kept)


def disk_that_nobody_mounts():
    """Where nobody may mount a disk, or nothing does, a test is left out in a line that `./test` prints again."""
    path, here = os.environ["PATH"], os.path.abspath("tools")
    os.mkdir(here)
    try:
        for lacking, tool in ((f"{here}:{path}", b"#!/bin/sh\nexit 1\n"), (here, None)):
            remove("tools/unshare")
            if tool:
                put("tools/unshare", tool), os.chmod("tools/unshare", 0o755)
            os.environ["PATH"] = lacking
            with contextlib.redirect_stdout(io.StringIO()) as said:
                want("the end", on_a_disk("a disk", "ro", "exit 0", b""), None)
            want("what is told", said.getvalue(), "left out: a disk, since nobody may mount one here\n")
    finally:
        os.environ["PATH"] = path
        shutil.rmtree(here)


def limit_of_files_is_told():
    """`./desk` ignores the signal that ends who writes more than a limit of the size of files lets: the save fails, and that is told."""
    kept = own_name("kept")
    os.makedirs("top/tools"), os.makedirs("top/crates/mapf_desk/out")
    shutil.copy2(f"{TOP}/desk", "top/desk")
    put("top/tools/sources", b"#!/bin/sh\necho these\n"), put("top/crates/mapf_desk/out/mapf_desk.sources", b"these\n")
    os.chmod("top/tools/sources", 0o755), os.symlink(Program.path, "top/crates/mapf_desk/out/mapf_desk")
    lines = ADD + b"goal 0 1,0\n" * 1999
    shell = f"ulimit -f 1; exec top/desk serve --map m --save {kept}"
    ran = subprocess.run(["bash", "-c", shell], input=lines, capture_output=True, timeout=PATIENCE)
    want("standard error", ran.stderr, f"mapf_desk: can't write {kept}\n".encode())
    want("the end", (ran.returncode, ran.stdout), (2, b"".join(b"version %d\n" % it for it in range(1, 2001))))
    want("what is left", [it for folder in (".", *FOLDERS) for it in os.listdir(folder) if kept in it], [])
    shutil.rmtree("top")


def not_saved_where_the_file_became_a_folder():
    """What was looked at before the session is another thing at its end."""
    planner = Planner("serve", "--map", "m", "--save", "folder")
    planner.ask(ADD, b"version 1\n")
    os.mkdir("folder")
    want("the end", planner.end_all(), (2, b"", b"mapf_desk: can't write folder: the journal is in folder.0.mapf-kept\n"))
    want("the journal", bytes_of("folder.0.mapf-kept"), ONE_ENTRY)
    os.rmdir("folder"), remove("folder.0.mapf-kept")


def kept_elsewhere_where_the_folder_went():
    """The journal is kept in another folder, where nobody else reads it; another's file of that name stays."""
    name = own_name("desk")
    other, kept = kept_in(FOLDERS[0], name), kept_in(FOLDERS[0], name, 1)
    os.mkdir("folder"), put(other, b"precious")
    planner = Planner("serve", "--map", "m", "--save", f"folder/{name}", "-v")
    planner.ask(ADD, b"version 1\n")
    shutil.rmtree("folder")
    fault = f"mapf_desk: can't write folder/{name}: the journal is in {kept}\n  No such file or directory (os error 2)\n"
    want("the end", planner.end_all(), (2, b"", fault.encode()))
    want("the journals", (bytes_of(kept), bytes_of(other)), (ONE_ENTRY, b"precious"))
    want("the mode", oct(os.stat(kept).st_mode & 0o7777), oct(0o600))
    remove(kept, other)


def saved_in_place_of_a_link():
    """The saved file is a new one: a link is gone, and what it named is as it was."""
    put("named", JOURNAL)
    os.symlink("named", "desk")
    is_answered(["serve", "--map", "m", "--save", "desk"], ADD, "version 1\n")
    want("whether it is a link", os.path.islink("desk"), False)
    want("the journal", bytes_of("desk"), ONE_ENTRY)
    want("what the link named", bytes_of("named"), JOURNAL)
    remove("named", "desk")


def saved_into_a_folder():
    os.mkdir("folder")
    save("--map m", ADD, "version 1\n", "folder/desk")
    want("what is there", os.listdir("folder"), ["desk"])
    want("the journal", bytes_of("folder/desk"), ONE_ENTRY)
    full = os.path.abspath("folder/desk")
    is_answered(["serve", "--map", "m", "--journal", full, "--save", full], b"drop 0\n", "version 2\n")
    want("the last line", bytes_of(full).split(b"\n")[-2], b"end 2")
    os.remove(full), os.rmdir("folder")


def tests():
    for test in (saved, saved_in_another_mode, saved_from_a_map_on_standard_input, not_saved_where_no_session_begins, not_saved_over_another_file,
                 broken_session_is_saved, saved_after_a_fault, not_saved_on_a_full_disk, disk_that_is_read_alone, disk_that_is_full,
                 disk_that_nobody_mounts, limit_of_files_is_told, not_saved_where_the_file_became_a_folder, kept_elsewhere_where_the_folder_went,
                 saved_in_place_of_a_link, saved_into_a_folder):
        yield test.__name__, test
