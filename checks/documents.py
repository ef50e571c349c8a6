#!/usr/bin/env python3
"""Tries the documents: runs their commands, and looks up the names, links and flags that they give.

    documents.py [--program FILE] [--list] [PAGE ..]

A `console` block holds commands, each a line that begins with `$ `, and behind each exactly what it prints. The line
`...` alone is any number of printed lines. One bash runs all commands of a page, in a new folder with copies of
examples/, checks/, bench/ and docs/; each command has 60 seconds. A block behind a line `<!-- file NAME -->` is
written there as NAME. Commands of `sh` blocks are not run.

Code spans that look like a path, a call, an item of code, a flag, a refusal or a target of make must exist, and so
must the targets of links. README.md and docs/ must keep the limits of length and of words that this file gives.

Without a PAGE it reads every document of the repository, and then also compares the flags in `--help`,
docs/scribmon.1 and docs/USAGE.md. It prints each finding as FILE:LINE: and a message, and then one line of counts.
With --list it also prints notes, which are no findings: blocks that are not tried, long sentences and paragraphs.

Status: 0 fine, 1 something is wrong, 2 a bad command line or a program that is not built.
"""

import argparse
import contextlib
import difflib
import fnmatch
import glob
import itertools
import os
import re
import secrets
import select
import shlex
import shutil
import signal
import subprocess
import sys
import tempfile
import time
from dataclasses import dataclass, field
from typing import Dict, FrozenSet, Iterable, Iterator, List, Optional, Set, Tuple

TOP = os.path.dirname(os.path.dirname(os.path.abspath(__file__)))
PROGRAM = os.path.join("crates", "scribmon", "out", "scribmon")
USAGE, MANUAL = "docs/USAGE.md", "docs/scribmon.1"
PAGES = ["README.md", "HACKING.md", "CHANGELOG.md", "docs/*.md", "examples/**/README.md", "checks/README.md",
         "bench/README.md", "crates/*/README.md", "crates/scrib_examples/cases/README.md"]
COPIED = ["examples", "checks", "bench", "docs"]
UNREAD_FOLDERS = {".git", ".ci", "out", "__pycache__"}
SOURCES = ["crates/*/src/**/*.rt", "crates/*/specs/**/*.antt", "crates/*/proofs/**/*.antt", "crates.txt",
           "checks/**/*.py", "bench/**/*.py", "crates/scrib_examples/cases/**/*.py", "examples/**/*"]
INFO_WORDS = {"console", "sh", "script", "scribble", "json", "text", "rust", "ebnf", "antt", "dot", "make", "yaml", "mermaid"}
# Blocks of these kinds show code or what is not tried: their words don't excuse a name in the text around them.
UNTRIED_WORDS = {"rust", "antt", "sh"}

SECONDS = 60
DIFF_LINES = 40
README_LINES, README_BYTES = 250, 14_336
PARAGRAPH_WORDS, SENTENCE_WORDS = 80, 25
RARE_WORDS, RARE_TIMES = ("told", "tells", "stands"), 5
RARE_UNREAD = {"docs/DEFINITIONS.md"}

SUFFIXES = r"\.(?:md|rt|antt|py|sh|scr|script|edit|txt|out|in|svg|json|log|1)"
FENCE = re.compile(r"^( *)(`{3,}|~{3,}) *([^`]*?) *$")
FILE_COMMENT = re.compile(r"^ *<!-- file (\S+) --> *$")
COMMENT = re.compile(r"<!--.*?-->", re.S)
HEADING = re.compile(r"^(#{1,6}) +(.*?)(?: +#+)? *$")
ITEM = re.compile(r"^ *(?:[-*+]|\d+[.)]) +")
QUOTE = re.compile(r"^ *(?:> ?)+")
SPAN = re.compile(r"(?<!`)(`+)(?!`)(.+?)(?<!`)\1(?!`)", re.S)
LINK = re.compile(r"\]\(<?([^)\s>]+)>?(?: +\"[^\"]*\")?\)|^ *\[[^\]]+\]: +(\S+)", re.M)
ANCHOR_TAG = re.compile(r"\b(?:id|name)=\"([^\"]+)\"")
COMMENT_OF = {".rt": re.compile(r"//.*"), ".antt": re.compile(r"(?:^|(?<=\s))--.*", re.M)}
WORD = re.compile(r"[^\W\d]\w*")
PATH = re.compile(r"[\w.*{},+/-]*/[\w.*{},+/-]*|[A-Za-z_*][\w.*{},-]*" + SUFFIXES)
PLACEHOLDER = re.compile(r"(?<![A-Za-z0-9.])[A-Z][A-Z_]*(?![a-z0-9])")
CALL = re.compile(r"([^\W\d]\w*(?:::[^\W\d]\w*)*)(\(.*\))?")
SNAKE = re.compile(r"_*[A-Za-z][A-Za-z0-9]*(?:_[A-Za-z0-9]+)+")
CAMEL = re.compile(r"(?=.*[a-z])[A-Z][A-Za-z0-9]*[A-Z][A-Za-z0-9]*")
FLAG = re.compile(r"(?<![\w-])--[a-z][a-z0-9-]*")
OPTION = re.compile(r"^ +(?:-\w, +)?(--[a-z][a-z0-9-]*)", re.M)
REFUSAL = re.compile(r"refused ([A-Z]\w*)")
PRINTED_WORD = re.compile(r"\"(?:refused )?([A-Z][A-Za-z]+)[ \"]")
MAKE = re.compile(r"\bmake ([a-z][\w-]*)")
TARGET = re.compile(r"^([a-z][\w -]*):(?!=)", re.M)
SHELL_PREFIX = re.compile(r"^bash: (?:eval: )?line \d+: ", re.M)
SENTENCE_END = re.compile(r"(?<=[.!?])[)\"']?\s+")

SYSTEM_FOLDERS = {"dev", "proc", "usr", "etc", "var", "run", "tmp"}
# Flags of programs that documents use, with the program.
KNOWN_FLAGS = {
    "--unbuffered": "jq", "--raw-output": "jq", "--compact-output": "jq", "--slurp": "jq", "--arg": "jq",
    "--line-buffered": "grep", "--follow": "tail", "--jobs": "make",
}
COMMON_FLAGS = {"--help", "--version"}
# Each span or word that looks like a name of the repository and is none, with the reason.
ALLOWED: Dict[str, str] = {
}


@dataclass(frozen=True)
class Finding:
    """Something that is wrong on a line of a document."""
    path: str
    line: int
    message: str

    def __str__(self) -> str:
        return f"{self.path}:{self.line}: {self.message}"


@dataclass(frozen=True)
class Block:
    """A fenced block: the line of its fence, its info word, its lines, and the file as which it is written."""
    line: int
    info: str
    lines: Tuple[str, ...]
    file: Optional[str] = None
    closed: bool = True


@dataclass(frozen=True)
class Paragraph:
    """Text between empty lines, an item of a list, a heading or a row of a table."""
    line: int
    kind: str
    text: str


@dataclass(frozen=True)
class Span:
    """An inline code span."""
    line: int
    text: str


@dataclass(frozen=True)
class Command:
    """A command of a console block, with the lines that it prints."""
    line: int
    text: str
    printed: Tuple[str, ...]


@dataclass(frozen=True)
class Section:
    """A heading with the lines behind it; `line` is the heading's."""
    line: int
    title: str
    lines: Tuple[str, ...]


@dataclass
class Page:
    """A document, taken apart. `made` holds the paths that its commands leave in its folder."""
    path: str
    lines: List[str]
    blocks: List[Block]
    paragraphs: List[Paragraph]
    made: Set[str] = field(default_factory=set)


@dataclass
class Names:
    """What the repository contains, to look names up in. `all_flags` says that the kit's flags are among `flags`."""
    paths: Set[str]
    suffixes: Set[str]
    files: Dict[str, FrozenSet[str]]
    words: Set[str]
    refusals: Set[str]
    flags: Set[str]
    all_flags: bool
    targets: Set[str]


@dataclass
class Result:
    """What was found, noted and counted so far."""
    findings: List[Finding] = field(default_factory=list)
    notes: List[Finding] = field(default_factory=list)
    pages: int = 0
    tried: int = 0
    untried: int = 0
    names: int = 0


# Pages.

def blanked(text: str) -> str:
    """The text with a blank in place of each character, its lines kept."""
    return re.sub(r"[^\n]", " ", text)


def closing(lines: List[str], start: int, mark: str) -> int:
    """The index of the line that closes the fence at `start`, or the number of lines where none does."""
    end = re.compile(rf"^ *{re.escape(mark[0])}{{{len(mark)},}} *$")
    return next((at for at in range(start + 1, len(lines)) if end.match(lines[at])), len(lines))


def dedented(line: str, indent: int) -> str:
    """The line without at most `indent` leading blanks."""
    return line[min(indent, len(line) - len(line.lstrip(" "))):]


def split_blocks(lines: List[str]) -> Tuple[List[Block], List[str]]:
    """The fenced blocks, and all lines with those of blocks and comments emptied."""
    blocks, rest, at = [], [], 0
    while at < len(lines):
        fence = FENCE.match(lines[at])
        if not fence:
            rest.append(lines[at])
            at += 1
            continue
        end = closing(lines, at, fence[2])
        named = FILE_COMMENT.match(lines[at - 1]) if at else None
        body = tuple(dedented(line, len(fence[1])) for line in lines[at + 1:end])
        word = (fence[3].split() or [""])[0]
        blocks.append(Block(at + 1, word, body, named and named[1], end < len(lines)))
        rest += [""] * (min(end + 1, len(lines)) - at)
        at = end + 1
    return blocks, COMMENT.sub(lambda found: blanked(found[0]), "\n".join(rest)).split("\n")


def paragraphs_of(lines: Iterable[str]) -> List[Paragraph]:
    """The paragraphs of the lines; each heading, row and item of a list is one of its own."""
    found: List[Paragraph] = []
    open_text = False
    for number, line in enumerate(lines, 1):
        text = QUOTE.sub("", line)
        if not text.strip():
            open_text = False
        elif HEADING.match(text) or text.lstrip().startswith("|"):
            found.append(Paragraph(number, "heading" if HEADING.match(text) else "row", text.strip()))
            open_text = False
        elif open_text and not ITEM.match(text):
            last = found.pop()
            found.append(Paragraph(last.line, "text", last.text + "\n" + text.strip()))
        else:
            found.append(Paragraph(number, "text", ITEM.sub("", text).strip()))
            open_text = True
    return found


def read_page(path: str, text: str) -> Page:
    """The page of a text."""
    lines = text.split("\n")
    if lines[-1] == "":
        lines.pop()
    blocks, rest = split_blocks(lines)
    return Page(path, lines, blocks, paragraphs_of(rest))


def line_at(paragraph: Paragraph, offset: int) -> int:
    """The page's line at an offset into a paragraph."""
    return paragraph.line + paragraph.text.count("\n", 0, offset)


def spans_of(page: Page) -> Iterator[Span]:
    """The page's code spans, with single blanks between words."""
    for paragraph in page.paragraphs:
        for found in SPAN.finditer(paragraph.text):
            text = found[2].replace("\\|", "|") if paragraph.kind == "row" else found[2]
            yield Span(line_at(paragraph, found.start()), " ".join(text.split()))


def headings_of(page: Page) -> Iterator[Tuple[int, int, str]]:
    """The line, the level and the text of each heading."""
    for paragraph in page.paragraphs:
        if paragraph.kind == "heading":
            marks, text = HEADING.match(paragraph.text).groups()
            yield paragraph.line, len(marks), text


def slug(heading: str) -> str:
    """GitHub's anchor of a heading: small letters, no punctuation, hyphens for blanks."""
    shown = re.sub(r"\[([^\]]*)\]\([^)]*\)", r"\1", heading)
    return re.sub(r"[^\w\- ]", "", shown.strip().lower()).replace(" ", "-")


def anchors_of(page: Page) -> Set[str]:
    """All anchors of a page; a heading that comes again has a number behind its slug."""
    anchors: Set[str] = set(ANCHOR_TAG.findall("\n".join(page.lines)))
    counts: Dict[str, int] = {}
    for _, _, text in headings_of(page):
        name = slug(text)
        anchors.add(f"{name}-{counts[name]}" if counts.get(name) else name)
        counts[name] = counts.get(name, 0) + 1
    return anchors


# Blocks.

def commands_of(block: Block) -> Tuple[List[Command], Optional[int]]:
    """The commands of a console block, and the line of a text in front of the first, where there is one."""
    commands, stray, at = [], None, 0
    while at < len(block.lines):
        line = block.line + 1 + at
        if not block.lines[at].startswith("$ "):
            stray = stray or line
            at += 1
            continue
        text = [block.lines[at][2:]]
        while text[-1].endswith("\\") and at + 1 < len(block.lines):
            at += 1
            text.append(block.lines[at])
        printed = list(itertools.takewhile(lambda one: not one.startswith("$ "), block.lines[at + 1:]))
        commands.append(Command(line, "\n".join(text), tuple(printed)))
        at += 1 + len(printed)
    return commands, stray


def agrees(expected: Iterable[str], printed: Iterable[str]) -> bool:
    """Whether the printed lines are the expected ones, with `...` for any number of lines."""
    pattern = "".join(r"(?:.*\n)*" if line == "..." else re.escape(line) + r"\n" for line in expected)
    return re.fullmatch(pattern, "".join(line + "\n" for line in printed)) is not None


def difference(expected: Iterable[str], printed: Iterable[str]) -> str:
    """A unified diff from the document's lines to the printed ones, indented."""
    lines = list(difflib.unified_diff(list(expected), list(printed), "document", "printed", lineterm=""))
    more = len(lines) - DIFF_LINES
    if more > 0:
        lines[DIFF_LINES:] = [f"({more} more lines)"]
    return "\n".join("    " + line for line in lines)


class ShellEnded(Exception):
    """The page's bash took too long for a command, or ended."""


class Shell:
    """One bash that runs commands one after another and keeps folder, variables and status between them."""

    def __init__(self, folder: str, tools: str) -> None:
        environment = {key: value for key, value in os.environ.items() if key not in ("BASH_ENV", "ENV", "CDPATH")}
        environment.update(PATH=tools + os.pathsep + environment["PATH"], LC_ALL="C.UTF-8", PYTHONDONTWRITEBYTECODE="1")
        self.mark = secrets.token_hex(16).encode()
        self.status = 0
        self.process = subprocess.Popen(
            ["bash", "--noprofile", "--norc"], cwd=folder, env=environment, bufsize=0, start_new_session=True,
            stdin=subprocess.PIPE, stdout=subprocess.PIPE, stderr=subprocess.STDOUT)

    def run(self, command: str, seconds: float = SECONDS) -> List[str]:
        """The lines that the command prints."""
        mark = self.mark.decode()
        line = f"(exit {self.status}); eval {shlex.quote(command)} < /dev/null; printf '{mark} %d\\n' $?\n"
        try:
            self.process.stdin.write(line.encode())
        except BrokenPipeError as error:
            raise ShellEnded("ends the page's bash") from error
        printed, status = self._read(time.monotonic() + seconds, seconds)
        self.status = int(status)
        return SHELL_PREFIX.sub("bash: ", printed.decode(errors="replace")).splitlines()

    def _read(self, deadline: float, seconds: float) -> Tuple[bytes, bytes]:
        """What is printed up to the mark, and the status behind it."""
        found, source = b"", self.process.stdout.fileno()
        while True:
            before, mark, behind = found.partition(self.mark)
            if mark and b"\n" in behind:
                return before, behind.split()[0]
            if not select.select([source], [], [], max(0, deadline - time.monotonic()))[0]:
                raise ShellEnded(f"takes over {seconds:g} seconds")
            part = os.read(source, 65_536)
            if not part:
                raise ShellEnded("ends the page's bash")
            found += part

    def close(self) -> None:
        """Ends bash and all that it started."""
        try:
            os.killpg(self.process.pid, signal.SIGKILL)
        except ProcessLookupError:
            pass
        self.process.wait()
        self.process.stdin.close()
        self.process.stdout.close()


def try_command(shell: Shell, page: Page, command: Command) -> List[Finding]:
    """Runs a command, and returns what is wrong with the lines behind it."""
    printed = shell.run(command.text)
    if agrees(command.printed, printed):
        return []
    shown = command.text.split("\n")[0]
    return [Finding(page.path, command.line, f"`{shown}` prints otherwise:\n{difference(command.printed, printed)}")]


def try_console(shell: Shell, page: Page, block: Block, findings: List[Finding]) -> None:
    """Runs the commands of a console block, and adds what is wrong with them."""
    commands, stray = commands_of(block)
    if stray:
        findings.append(Finding(page.path, stray, "a console block begins with a command, `$ ..`"))
    for command in commands:
        try:
            findings += try_command(shell, page, command)
        except ShellEnded as error:
            message = f"`{command.text}` {error}; the page's later commands are not run"
            findings.append(Finding(page.path, command.line, message))
            raise


def write_block(folder: str, page: Page, block: Block) -> List[Finding]:
    """Writes a block into the page's folder as its file."""
    path = os.path.normpath(os.path.join(folder, block.file))
    if not path.startswith(folder + os.sep):
        return [Finding(page.path, block.line, f"`{block.file}` is outside the page's folder")]
    os.makedirs(os.path.dirname(path), exist_ok=True)
    with open(path, "w", encoding="utf-8") as file:
        file.writelines(line + "\n" for line in block.lines)
    return []


def copy_folders(folder: str) -> None:
    """Copies the folders that commands may name."""
    for name in COPIED:
        if os.path.isdir(os.path.join(TOP, name)):
            skipped = shutil.ignore_patterns(*UNREAD_FOLDERS)
            shutil.copytree(os.path.join(TOP, name), os.path.join(folder, name), ignore=skipped)


def try_in(folder: str, tools: str, page: Page) -> List[Finding]:
    """Writes the page's files into the folder and runs its commands there, in the page's order."""
    findings: List[Finding] = []
    with contextlib.closing(Shell(folder, tools)) as shell, contextlib.suppress(ShellEnded):
        for block in page.blocks:
            if block.file:
                findings += write_block(folder, page, block)
            elif block.info == "console":
                try_console(shell, page, block, findings)
    return findings


def try_blocks(page: Page, tools: str) -> List[Finding]:
    """Tries the page's blocks in a new folder, and keeps in the page which paths they leave there."""
    if not any(block.file or block.info == "console" for block in page.blocks):
        return []
    with tempfile.TemporaryDirectory(prefix="documents.") as name:
        folder = os.path.realpath(name)
        copy_folders(folder)
        findings = try_in(folder, tools, page)
        page.made = suffixes_of(paths_below(folder))
    return findings


def block_findings(page: Page) -> List[Finding]:
    """Blocks without an end, and blocks whose info word is missing or unknown."""
    findings = []
    for block in page.blocks:
        if not block.closed:
            findings.append(Finding(page.path, block.line, "the block has no end"))
        if not block.info:
            findings.append(Finding(page.path, block.line, "the block has no info word"))
        elif block.info not in INFO_WORDS:
            findings.append(Finding(page.path, block.line, f"unknown info word `{block.info}`"))
    return findings


def untried_notes(page: Page) -> List[Finding]:
    """A note for each block of commands that is not tried."""
    notes = []
    for block in page.blocks:
        if block.info == "sh" and not block.file:
            shown = next((line for line in block.lines if line.strip() and not line.startswith("#")), "")
            notes.append(Finding(page.path, block.line, "not tried: " + re.split(r"\s+#", shown)[0]))
    return notes


# Names.

def paths_below(folder: str) -> Set[str]:
    """The files and folders below a folder, relative to it, without what builds and git make."""
    paths = set()
    for here, folders, files in os.walk(folder):
        folders[:] = [name for name in folders if name not in UNREAD_FOLDERS]
        paths.update(os.path.relpath(os.path.join(here, name), folder) for name in folders + files)
    return paths


def suffixes_of(paths: Iterable[str]) -> Set[str]:
    """Every path without 0, 1, 2 and so on of its first folders."""
    suffixes = set()
    for path in paths:
        parts = path.split("/")
        suffixes.update("/".join(parts[at:]) for at in range(len(parts)))
    return suffixes


def read_text(path: str) -> str:
    """A file's text."""
    with open(path, encoding="utf-8", errors="replace") as file:
        return file.read()


def code_of(path: str) -> str:
    """A source file's text, without the comments of Rattle and of its proofs."""
    comment = COMMENT_OF.get(os.path.splitext(path)[1])
    return comment.sub("", read_text(path)) if comment else read_text(path)


def source_words(top: str) -> Dict[str, FrozenSet[str]]:
    """The words of each source file."""
    paths = itertools.chain.from_iterable(glob.glob(os.path.join(top, one), recursive=True) for one in SOURCES)
    kept = {path for path in paths if os.path.isfile(path) and not UNREAD_FOLDERS & set(path.split(os.sep))}
    return {os.path.relpath(path, top): frozenset(WORD.findall(code_of(path))) for path in kept}


def refusals_below(top: str) -> Set[str]:
    """The words that sources print behind `refused`."""
    words: Set[str] = set()
    for path in glob.glob(os.path.join(top, "crates/*/src/**/*.rt"), recursive=True):
        words.update(PRINTED_WORD.findall(read_text(path)))
    return words


def output_of(*command: str) -> str:
    """What a command prints, or nothing where it is not installed."""
    try:
        done = subprocess.run(command, stdin=subprocess.DEVNULL, stdout=subprocess.PIPE, stderr=subprocess.STDOUT,
                              timeout=SECONDS, check=False)
    except (FileNotFoundError, subprocess.TimeoutExpired):
        return ""
    return done.stdout.decode(errors="replace")


def command_flags(program: str) -> Dict[str, Set[str]]:
    """The long flags of each of the program's commands."""
    listed = output_of(program, "--help").partition("\nCommands:\n")[2].partition("\n\n")[0]
    commands = [line.split()[0] for line in listed.splitlines() if re.match(r"  \w", line)]
    return {name: set(OPTION.findall(output_of(program, name, "--help"))) for name in commands if name != "help"}


def script_flags(top: str) -> Set[str]:
    """The flags of the repository's scripts."""
    flags: Set[str] = set()
    for folder in ("checks", "bench", "examples", "crates/scrib_examples/cases"):
        for path in glob.glob(os.path.join(top, folder, "**/*.py"), recursive=True):
            flags.update(FLAG.findall(read_text(path)))
    return flags


def make_targets(top: str) -> Set[str]:
    """The targets of the Makefile."""
    path = os.path.join(top, "Makefile")
    text = read_text(path) if os.path.exists(path) else ""
    return {name for targets in TARGET.findall(text) for name in targets.split()}


def read_names(top: str, flags: Dict[str, Set[str]]) -> Names:
    """All names of the repository, with the flags of the program's commands."""
    paths, files = paths_below(top), source_words(top)
    stems = {os.path.basename(path).split(".")[0] for path in paths}
    kit = output_of(os.environ.get("RT", "rt"), "help")
    known = COMMON_FLAGS.union(KNOWN_FLAGS, script_flags(top), FLAG.findall(kit), *flags.values())
    return Names(paths=paths, suffixes=suffixes_of(paths), files=files, words=stems.union(*files.values()),
                 refusals=refusals_below(top), flags=known, all_flags=bool(kit), targets=make_targets(top))


def own_words(page: Page) -> Set[str]:
    """The words of the page's own blocks, those of code and of untried commands aside."""
    blocks = (block for block in page.blocks if block.info not in UNTRIED_WORDS)
    return {word for block in blocks for line in block.lines for word in WORD.findall(line)}


def alternatives(path: str) -> List[str]:
    """The paths that a path with {a,b} means."""
    found = re.search(r"\{([^{}]*)\}", path)
    if not found:
        return [path]
    front, behind = path[:found.start()], path[found.end():]
    return [one for choice in found[1].split(",") for one in alternatives(front + choice + behind)]


def pattern_of(path: str) -> str:
    """The path as a glob: `*` for words in capitals and for `..`, but not in names of pages."""
    parts = []
    for part in path.split("/"):
        if set(part) == {"."}:
            parts.append("*")
        else:
            parts.append(part if part.endswith(".md") else PLACEHOLDER.sub("*", part).replace("...", "*"))
    return "/".join(parts)


def is_built(path: str, names: Names) -> bool:
    """Whether the path is a crate's folder out/, or below it."""
    crate, found, _ = (path + "/").partition("/out/")
    return bool(found) and (pattern_of(crate) != crate or crate in names.suffixes)


def has_path(path: str, page: Page, names: Names) -> bool:
    """Whether a path without alternatives exists, relative to the top, to the page or to some folder."""
    if path.startswith("/"):
        return path.split("/")[1] in SYSTEM_FOLDERS
    plain = os.path.normpath(path)
    beside = os.path.normpath(os.path.join(os.path.dirname(page.path), path))
    if is_built(plain, names) or not {plain, beside}.isdisjoint(names.suffixes) or plain in page.made:
        return True
    pattern = pattern_of(path.rstrip("/"))
    return "*" in pattern and bool(fnmatch.filter(names.suffixes, pattern))


def path_findings(page: Page, names: Names, words: Iterable[str]) -> Iterator[Optional[str]]:
    """For each path among the words, what is wrong with it or None."""
    for word in words:
        bare = re.sub(r":\d+$", "", word)
        if word in ALLOWED or not PATH.fullmatch(bare) or not re.search("[A-Za-z]", bare) or set(bare) <= set("./"):
            continue
        missing = [one for one in alternatives(bare) if not has_path(one, page, names)]
        yield f"no such path: `{missing[0]}`" if missing else None


def has_item(name: str, within: str, names: Names) -> bool:
    """Whether a file has both words, or a file of the crate `within` has the name."""
    crate = f"crates/{within}/"
    return any(name in words and (within in words or path.startswith(crate)) for path, words in names.files.items())


def item_finding(text: str, own: Set[str], names: Names) -> Optional[str]:
    """What is wrong with a call, a path of items or a name of code."""
    parts = CALL.fullmatch(text)[1].split("::")
    missing = [part for part in parts if part not in names.words and part not in own]
    if missing:
        return f"no such name: `{missing[0]}`"
    if len(parts) > 1 and not has_item(parts[-1], parts[-2], names):
        return f"no source file has both `{parts[-2]}` and `{parts[-1]}`"
    return None


def is_item(text: str) -> bool:
    """Whether a span looks like a call, a path of items or a name of code."""
    found = CALL.fullmatch(text)
    named = found and (found[2] or "::" in found[1] or SNAKE.fullmatch(text) or CAMEL.fullmatch(text))
    return bool(named)


def span_findings(span: Span, page: Page, own: Set[str], names: Names) -> Iterator[Optional[str]]:
    """For each name of a span that is looked up, what is wrong with it or None."""
    if span.text in ALLOWED:
        return
    if is_item(span.text):
        yield item_finding(span.text, own, names)
        return
    refused = REFUSAL.match(span.text)
    if refused:
        yield None if refused[1] in names.refusals else f"no refusal is printed as `{refused[1]}`"
    for flag in FLAG.findall(span.text):
        yield f"no such flag: `{flag}`" if names.all_flags and flag not in names.flags | set(ALLOWED) else None
    yield from target_findings(span.text, names)
    yield from path_findings(page, names, span.text.split())


def target_findings(text: str, names: Names) -> Iterator[Optional[str]]:
    """For each target of make in a text of commands, what is wrong with it or None."""
    for target in MAKE.findall(text):
        yield None if target in names.targets else f"the Makefile has no target `{target}`"


def untried_findings(page: Page, names: Names) -> Iterator[Tuple[int, Optional[str]]]:
    """For each path of the repository and each target of make in commands that are not tried, what is wrong or None."""
    folders = tuple(sorted({path.split("/")[0] + "/" for path in names.paths if "/" in path}))
    for block in page.blocks:
        if block.info != "sh" or block.file:
            continue
        for line, text in enumerate(block.lines, block.line + 1):
            words = [word for word in text.split() if word.startswith(folders)]
            yield from ((line, one) for one in target_findings(text.partition("#")[0], names))
            yield from ((line, one) for one in path_findings(page, names, words))


def name_findings(page: Page, names: Names) -> Tuple[List[Finding], int]:
    """The names that the page gives and that do not exist, and how many were looked up."""
    own = own_words(page)
    found = [(span.line, one) for span in spans_of(page) for one in span_findings(span, page, own, names)]
    found += untried_findings(page, names)
    return [Finding(page.path, line, one) for line, one in found if one], len(found)


# Links.

def links_of(page: Page) -> Iterator[Tuple[int, str]]:
    """The line and the target of each link."""
    for paragraph in page.paragraphs:
        text = SPAN.sub(lambda found: re.sub(r"[^\n]", "x", found[0]), paragraph.text)
        for found in LINK.finditer(text):
            yield line_at(paragraph, found.start()), found[1] or found[2]


def link_finding(page: Page, target: str, pages: Dict[str, Page]) -> Optional[str]:
    """What is wrong with a link of the page, or None. `pages` keeps the pages that were read."""
    if re.match(r"[a-z][a-z0-9+.-]*:", target):
        return None
    name, _, anchor = target.partition("#")
    path = os.path.normpath(os.path.join(os.path.dirname(page.path), name)) if name else page.path
    if not os.path.exists(os.path.join(TOP, path)):
        return f"the link's file does not exist: {target}"
    if not anchor or not path.endswith(".md"):
        return None
    if path not in pages:
        pages[path] = read_page(path, read_text(os.path.join(TOP, path)))
    return None if anchor in anchors_of(pages[path]) else f"the link's heading does not exist: {target}"


def link_findings(page: Page, pages: Dict[str, Page]) -> List[Finding]:
    """The links of the page that lead nowhere."""
    found = ((line, link_finding(page, target, pages)) for line, target in links_of(page))
    return [Finding(page.path, line, one) for line, one in found if one]


# Flags.

def page_sections(page: Page) -> List[Section]:
    """The sections of a page, each up to the next heading of its level or above."""
    headings = list(headings_of(page))
    sections = []
    for at, (line, level, text) in enumerate(headings):
        ends = (one[0] for one in headings[at + 1:] if one[1] <= level)
        sections.append(Section(line, text, tuple(page.lines[line:next(ends, len(page.lines) + 1) - 1])))
    return sections


def manual_sections(text: str) -> List[Section]:
    """The sections of a man page, with plain hyphens."""
    lines = text.replace("\\-", "-").split("\n")
    starts = [at for at, line in enumerate(lines) if re.match(r"\.S[HS]\b", line)]
    return [Section(start + 1, lines[start][3:].strip().strip('"'), tuple(lines[start + 1:end]))
            for start, end in zip(starts, starts[1:] + [len(lines)])]


def is_about(section: Section, command: str) -> bool:
    """Whether a section's title begins with the command's name, or with the program's and then the command's."""
    words = re.findall(r"[\w-]+", re.sub(r"\\f.|\\[&|]", "", section.title))
    return words[:1] == [command] or words[:2] == ["scribmon", command]


def flags_in(sections: Iterable[Section]) -> Dict[str, int]:
    """The flags of some sections, each with its first line."""
    flags: Dict[str, int] = {}
    for section in sections:
        for line, text in enumerate(section.lines, section.line + 1):
            for flag in FLAG.findall(text):
                flags.setdefault(flag, line)
    return flags


def flag_findings(path: str, sections: List[Section], flags: Dict[str, Set[str]]) -> Iterator[Finding]:
    """Where the sections of a document have other flags than the commands' help."""
    for command, wanted in flags.items():
        about = [section for section in sections if is_about(section, command)]
        if not about:
            yield Finding(path, 1, f"no section on `{command}`")
            continue
        given = flags_in(about)
        for flag in sorted(wanted - COMMON_FLAGS - set(given)):
            yield Finding(path, about[0].line, f"`{command}` has the flag `{flag}`, which its section does not give")
        for flag in sorted(set(given) - COMMON_FLAGS - set(KNOWN_FLAGS) - wanted):
            yield Finding(path, given[flag], f"the section on `{command}` gives `{flag}`, which its --help does not")


def all_flag_findings(top: str, flags: Dict[str, Set[str]]) -> Iterator[Finding]:
    """Where the page on usage and the man page have other flags than the commands' help."""
    if not flags:
        yield Finding(PROGRAM, 1, "--help lists no commands")
    for path in (USAGE, MANUAL):
        if not os.path.exists(os.path.join(top, path)):
            yield Finding(path, 1, "the document does not exist")
            continue
        text = read_text(os.path.join(top, path))
        sections = manual_sections(text) if path == MANUAL else page_sections(read_page(path, text))
        yield from flag_findings(path, sections, flags)


# Prose.

def shown_text(paragraph: Paragraph) -> str:
    """The words of a paragraph: `x` for each word of a code span, no targets of links, no marks."""
    text = SPAN.sub(lambda found: " ".join("x" for _ in found[2].split()), paragraph.text)
    return re.sub(r"[\[\]*]", "", re.sub(r"\]\([^)]*\)", "]", text))


def prose_notes(page: Page) -> Tuple[List[Finding], List[Finding]]:
    """The paragraphs and the sentences that are too long."""
    paragraphs, sentences = [], []
    for paragraph in page.paragraphs:
        if paragraph.kind != "text":
            continue
        text = shown_text(paragraph)
        if len(text.split()) > PARAGRAPH_WORDS:
            paragraphs.append(Finding(page.path, paragraph.line, f"a paragraph of {len(text.split())} words"))
        start = 0
        for end in [found.end() for found in SENTENCE_END.finditer(text)] + [len(text)]:
            count, line = len(text[start:end].split()), paragraph.line + text.count("\n", 0, start)
            if count > SENTENCE_WORDS:
                sentences.append(Finding(page.path, line, f"a sentence of {count} words"))
            start = end
    return paragraphs, sentences


def size_findings(page: Page) -> List[Finding]:
    """Whether README.md is too long."""
    size = sum(len(line.encode()) + 1 for line in page.lines)
    findings = []
    if len(page.lines) > README_LINES:
        findings.append(Finding(page.path, README_LINES + 1, f"{len(page.lines)} lines; at most {README_LINES}"))
    if size > README_BYTES:
        findings.append(Finding(page.path, len(page.lines), f"{size} bytes; at most {README_BYTES}"))
    return findings


def rare_lines(page: Page, word: str) -> List[int]:
    """The lines of a page's prose that have a word, once for each time."""
    found = []
    for paragraph in page.paragraphs:
        text = SPAN.sub(lambda span: blanked(span[0]), paragraph.text)
        found += [line_at(paragraph, one.start()) for one in re.finditer(rf"\b{word}\b", text, re.I)]
    return found


def rare_findings(pages: Iterable[Page]) -> Iterator[Finding]:
    """The words that README.md and docs/ have too often together."""
    read = [page for page in pages if page.path == "README.md" or page.path.startswith("docs/")]
    read = [page for page in read if page.path not in RARE_UNREAD]
    for word in RARE_WORDS:
        lines = {page.path: rare_lines(page, word) for page in read}
        total = sum(map(len, lines.values()))
        for path, here in lines.items():
            if total > RARE_TIMES and here:
                shown = ", ".join(map(str, here))
                yield Finding(path, here[0], f"{word}: {len(here)} of {total}, at most {RARE_TIMES}; lines {shown}")


# The whole.

def check_page(page: Page, tools: str, names: Names, pages: Dict[str, Page], result: Result) -> None:
    """Adds to the result what is wrong with one page."""
    result.pages += 1
    result.tried += sum(block.info == "console" and not block.file for block in page.blocks)
    result.findings += block_findings(page) + try_blocks(page, tools)
    untried = untried_notes(page)
    result.untried += len(untried)
    found, looked_up = name_findings(page, names)
    result.names += looked_up
    result.findings += found + link_findings(page, pages)
    paragraphs, sentences = prose_notes(page)
    result.notes += untried + sentences
    if page.path == "README.md":
        result.findings += size_findings(page) + paragraphs
    else:
        result.notes += paragraphs


def check(paths: List[str], program: str, whole: bool) -> Result:
    """Checks the pages of these paths; `whole` says that they are all that there are."""
    flags = command_flags(program)
    names = read_names(TOP, flags)
    pages = {path: read_page(path, read_text(os.path.join(TOP, path))) for path in paths}
    result = Result()
    with tempfile.TemporaryDirectory(prefix="documents.") as tools:
        os.symlink(program, os.path.join(tools, "scribmon"))
        for path in paths:
            check_page(pages[path], tools, names, pages, result)
    result.findings += rare_findings(pages[path] for path in paths)
    if whole or USAGE in paths:
        result.findings += all_flag_findings(TOP, flags)
    return result


def default_pages(top: str) -> List[str]:
    """The documents of the repository, relative to its top."""
    found = (glob.glob(os.path.join(top, one), recursive=True) for one in PAGES)
    return [os.path.relpath(path, top) for some in found for path in sorted(some)]


def report(result: Result, listed: bool) -> None:
    """Prints what was found, and the counts."""
    shown = sorted(result.findings, key=lambda one: (one.path, one.line))
    for finding in shown:
        print(finding)
    if listed:
        for note in sorted(result.notes, key=lambda one: (one.path, one.line)):
            print(f"{note.path}:{note.line}: note: {note.message}")
    print(f"{result.pages} pages, {result.tried} blocks tried, {result.untried} blocks listed and not tried, "
          f"{result.names} names looked up, {len(result.findings)} findings")


def arguments() -> argparse.Namespace:
    """The command line; ends with status 2 where it is refused."""
    parser = argparse.ArgumentParser(description=__doc__, formatter_class=argparse.RawDescriptionHelpFormatter)
    parser.add_argument("--program", metavar="FILE", help=f"the program; {PROGRAM} where none is named")
    parser.add_argument("--list", action="store_true", help="also print notes")
    parser.add_argument("pages", metavar="PAGE", nargs="*", help="a document; all of them where none is named")
    given = parser.parse_args()
    program = given.program or os.path.relpath(os.path.join(TOP, PROGRAM))
    if not os.access(program, os.X_OK):
        parser.exit(2, f"{parser.prog}: {program} is not built; `make build` builds it\n")
    given.program = os.path.abspath(program)
    for page in given.pages:
        if not os.path.isfile(page):
            parser.error(f"there is no page {page}")
    return given


def main() -> int:
    """Checks what the command line names, and returns the exit status."""
    given = arguments()
    paths = [os.path.relpath(page, TOP) for page in given.pages] or default_pages(TOP)
    result = check(paths, given.program, not given.pages)
    report(result, given.list)
    return 1 if result.findings else 0


if __name__ == "__main__":
    sys.exit(main())
