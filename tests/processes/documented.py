"""The commands of the pages, each run as it stands, with the output that the page has below it.

A block ```console has lines `$ COMMAND`, each with its output, standard error too, below it. A line `..` stands for any lines.
The blocks of a page are run in order by one shell, in a folder of its own that has `./desk`, demo/, docs/ and tests/. Those of LIBRARY, whose
programs stand in blocks of their own, are run by tests/library.py.
"""
import glob
import os
import re
import subprocess
import tempfile

from .running import PATIENCE, Program, TOP, Wrong, put, want

LIBRARY = "docs/LIBRARY.md"
PAGES = ["README.md", "CONTRIBUTING.md", *sorted(os.path.relpath(it, TOP) for it in glob.glob(f"{TOP}/docs/*.md"))]
MARK = "--- the end of command"
MOST_WORDS, MOST_OF_A_PARAGRAPH = 20_000, 60


def text_of(page):
    with open(f"{TOP}/{page}", encoding="utf-8") as opened:
        return opened.read()


def blocks_of(page):
    """The blocks of a page, in order, each with its language."""
    return re.findall(r"^```(\w+)\n(.*?)^```$", text_of(page), re.MULTILINE | re.DOTALL)


def commands_of(page):
    """The commands of a page, in order, each with the lines that are to come of it."""
    commands = []
    for line in "".join(text for language, text in blocks_of(page) if language == "console").splitlines():
        if line.startswith("$ "):
            commands.append((line[2:], []))
        else:
            commands[-1][1].append(line)
    return commands


def programs_of(page):
    """The programs of a page: each Python block, under the name of the file that the paragraph above it begins with."""
    return re.findall(r"^`(\w+\.py)`.*\n\n```python\n(.*?)^```$", text_of(page), re.MULTILINE | re.DOTALL)


def are_these(found, wanted):
    """Whether the lines are those that are wanted, where `..` stands for any."""
    pattern = "".join(r"(.*\n)*" if it == ".." else re.escape(it + "\n") for it in wanted)
    return re.fullmatch(pattern, "".join(it + "\n" for it in found)) is not None


def page_runs(page, links=("demo", "docs", "tests"), files=()):
    """Each command of the page prints what the page says, in a folder with these links to the repository and these files."""
    commands = commands_of(page)
    with tempfile.TemporaryDirectory() as folder:
        for name in links:
            os.symlink(f"{TOP}/{name}", f"{folder}/{name}")
        for name, text in files:
            put(f"{folder}/{name}", text.encode())
        os.makedirs(f"{folder}/release")
        for name in ("desk", "release/mapf_desk"):
            os.symlink(Program.path, f"{folder}/{name}")
        for name in glob.glob(f"{TOP}/library/out/*"):
            os.symlink(name, f"{folder}/release/{os.path.basename(name)}")
        script = "".join(f"{command}\necho '{MARK} {number}'\n" for number, (command, _) in enumerate(commands))
        how = {"cwd": folder, "text": True, "timeout": PATIENCE, "stdout": subprocess.PIPE, "stderr": subprocess.STDOUT}
        ran = subprocess.run(["bash"], input=script, env={**os.environ, "PYTHONDONTWRITEBYTECODE": "1"}, **how)
    outputs = re.split(rf"^{MARK} \d+\n", ran.stdout, flags=re.MULTILINE)
    want(f"how many commands of {page} came to their end", len(outputs) - 1, len(commands))
    for (command, wanted), output in zip(commands, outputs):
        if not are_these(output.splitlines(), wanted):
            raise Wrong(f"{page}: `{command}` prints {output!r:.600}")


def pages_have_commands():
    """The pages that users begin with have commands to run, and none is told from its block wrongly."""
    for page in ("README.md", "docs/FILES.md", "docs/PROTOCOL.md", "docs/CLI.md", "docs/PLANNER.md"):
        if not commands_of(page):
            raise Wrong(f"{page} has no command")
    for found, wanted, right in ((["a", "b"], ["a", ".."], True), (["a"], ["a", "b"], False), (["a", "b"], ["a"], False), ([], [".."], True)):
        want(f"{found} beside {wanted}", are_these(found, wanted), right)


def paragraphs_of(page):
    """The paragraphs of a page and the items of its lists, but no blocks, tables or index."""
    text = re.sub(r"^```.*?^```$", "", text_of(page), flags=re.MULTILINE | re.DOTALL)
    text = re.sub(r"^(    |Index: ).*$", "", text, flags=re.MULTILINE)
    parts = re.split(r"\n\s*\n|\n(?=\s*(?:- |\d+\. ))", text)
    return [it for it in parts if not re.search(r"^\|?-+\|-", it, re.MULTILINE)]


def pages_are_short():
    """All pages have no more words than may be, and no paragraph has."""
    words = sum(len(text_of(page).split()) for page in PAGES)
    if words > MOST_WORDS:
        raise Wrong(f"the pages have {words} words")
    for page in PAGES:
        for it in paragraphs_of(page):
            if len(it.split()) > MOST_OF_A_PARAGRAPH:
                raise Wrong(f"{page} has a paragraph of {len(it.split())} words: {it.strip():.60}")


def links_lead_somewhere():
    """Each link of a page leads to a file that is there, and to a heading of it."""
    for page in PAGES:
        for file, heading in re.findall(r"\]\(([^)#]*)(?:#([^)]*))?\)", text_of(page)):
            target = os.path.normpath(f"{TOP}/{os.path.dirname(page)}/{file}" if file else f"{TOP}/{page}")
            if file.startswith("http"):
                continue
            if not os.path.exists(target):
                raise Wrong(f"{page} has a link to {file}, which isn't there")
            if heading and heading not in anchors_of(target):
                raise Wrong(f"{page} has a link to #{heading} of {file or page}, which has no such heading")


def anchors_of(file):
    """The anchors that a reader of Markdown makes of a file's headings."""
    headings = re.findall(r"^#+ (.*)$", text_of(os.path.relpath(file, TOP)), re.MULTILINE)
    return {re.sub(r"[^\w\- ]", "", it.lower()).replace(" ", "-") for it in headings}


def tests():
    pages = [(f"page_runs_{os.path.basename(page)[:-3].lower()}", lambda page=page: page_runs(page, files=programs_of(page))) for page in PAGES if commands_of(page) and page != LIBRARY]
    return [(it.__name__, it) for it in (pages_have_commands, pages_are_short, links_lead_somewhere)] + pages
