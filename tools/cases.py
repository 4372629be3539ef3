"""Runs the cases of tables with a program: cases.py PROGRAM TABLE..

A table has comments behind `//`, and these lines:

  words WORD..                 the words that the program is run with
  status NUMBER                the status that it must end with
  -- NAME --                   the lines below it, up to the next line of one of these kinds, are the file NAME;
                               those of `expected` are what must be printed
  change NAME: OLD => NEW      in the file NAME, OLD stands exactly once, and NEW stands in its place;
                               in both, \\n is a newline, \\t a tab, and \\\\ a backslash
  fill NAME NUMBER             the file NAME has so many bytes, by blanks behind its end
  absent NAME                  there is no file NAME
  == NAME                      a case begins; what stands above the first holds for each case

Prints each case that fails with its place in the table, and the count of those that pass.
"""

import difflib
import os
import re
import shlex
import subprocess
import sys
import tempfile
from concurrent.futures import ThreadPoolExecutor
from dataclasses import dataclass, field

SECONDS = 20
ESCAPES = {"\\n": "\n", "\\t": "\t", "\\\\": "\\"}


@dataclass
class Case:
    name: str
    line: int
    words: list = field(default_factory=list)
    status: int = 0
    files: dict = field(default_factory=dict)


class TableFault(Exception):
    pass


def plain(text):
    """A text with its escapes read."""
    return re.sub(r"\\[nt\\]", lambda found: ESCAPES[found[0]], text)


def change(place, files, text):
    """Replaces a text that stands exactly once in a file of the case."""
    name, _, pair = text.partition(": ")
    old, arrow, new = pair.partition(" => ")
    if not arrow or files.get(name, "").count(plain(old)) != 1:
        raise TableFault(f"{place}: '{old}' does not stand exactly once in '{name}'")
    files[name] = files[name].replace(plain(old), plain(new))


def fill(place, files, text):
    """Fills a file of the case up to a length with blanks."""
    name, _, length = text.partition(" ")
    if name not in files or not length.isdigit():
        raise TableFault(f"{place}: no file and length: {text}")
    files[name] = files[name].ljust(int(length))


def directive(place, case, line):
    """Reads a line that stands in no file."""
    word, _, rest = line.partition(" ")
    if word == "words":
        case.words = shlex.split(rest)
    elif word == "status" and rest.isdigit():
        case.status = int(rest)
    elif word == "change":
        change(place, case.files, rest)
    elif word == "fill":
        fill(place, case.files, rest)
    elif word == "absent" and rest in case.files:
        del case.files[rest]
    elif line and not line.startswith("//"):
        raise TableFault(f"{place}: no line of a table: {line}")


def read(path):
    """The cases of a table."""
    with open(path, encoding="utf-8", newline="") as table:
        lines = table.read().split("\n")
    common, cases = Case("", 0), []
    case, block = common, None
    for number, line in enumerate(lines, 1):
        marked = re.fullmatch(r"-- (\S+) --", line)
        if line.startswith("== "):
            case, block = Case(line[3:], number, common.words, common.status, dict(common.files)), None
            if any(other.name == case.name for other in cases):
                raise TableFault(f"{path}:{number}: a second case of this name: {case.name}")
            cases.append(case)
        elif marked:
            block = marked[1]
            case.files[block] = ""
        elif block:
            # An empty line above `== NAME`, and that behind the table's last newline, belong to no file.
            is_last = number == len(lines) or lines[number].startswith("== ")
            case.files[block] += "" if not line and is_last else f"{line}\n"
        else:
            directive(f"{path}:{number}", case, line)
    return cases


def told(program, path, case):
    """What to say of a case that fails, or nothing."""
    expected = case.files.get("expected", "")
    how = {"stdin": subprocess.DEVNULL, "capture_output": True, "timeout": SECONDS}
    with tempfile.TemporaryDirectory() as folder:
        for name in case.files.keys() - {"expected"}:
            with open(os.path.join(folder, name), "wb") as file:
                file.write(case.files[name].encode())
        try:
            ran = subprocess.run([program, *case.words], cwd=folder, **how)
        except subprocess.TimeoutExpired:
            return f"{path}:{case.line}: {case.name}: not ended after {SECONDS} seconds\n"
    if ran.returncode == case.status and ran.stdout == expected.encode():
        return ""
    printed = ran.stdout.decode(errors="backslashreplace")
    lines = difflib.unified_diff(expected.splitlines(True), printed.splitlines(True), "expected", "printed")
    status = "" if ran.returncode == case.status else f"status {ran.returncode}, and not {case.status}\n"
    return f"{path}:{case.line}: {case.name}\n{status}{''.join(lines)}{ran.stderr.decode(errors='backslashreplace')}"


def main(program, paths):
    program, failed = os.path.abspath(program), 0
    with ThreadPoolExecutor(os.cpu_count()) as pool:
        for path in paths:
            try:
                cases = read(path)
            except (OSError, UnicodeDecodeError, TableFault) as fault:
                print(fault)
                failed += 1
                continue
            faults = [it for it in pool.map(lambda case: told(program, path, case), cases) if it]
            print(*faults, sep="", end="")
            print(f"{path}: {len(cases) - len(faults)} of {len(cases)} cases pass")
            failed += len(faults) + (not cases)
    return 1 if failed or not paths else 0


if __name__ == "__main__":
    if len(sys.argv) < 3:
        sys.exit("usage: cases.py PROGRAM TABLE..")
    sys.exit(main(sys.argv[1], sys.argv[2:]))
