#!/usr/bin/env python3
"""Reads answers in JSON back by Python's own reader, which the gate doesn't: the gate compares bytes.

  read_json.py            reads the answer of each case of the table of lines of json_cases: it must have the digests, the lines and the
                          status that the case gives, in this order, and must be what Python writes of them without a space. And each
                          report in JSON of the table of report_cases, which must say what the same report's text says
  read_json.py PROGRAM    besides runs each example twice, as text and in JSON, which must agree with each other and with the files' digests

Prints what differs and how many were read, and ends with 1 where one differs.
"""
import hashlib
import json
import os
import re
import subprocess
import sys

TOP = os.path.dirname(os.path.dirname(os.path.abspath(__file__)))
TABLE = f"{TOP}/crates/json_cases/data/lines.txt"
REPORTS = f"{TOP}/crates/report_cases/data/reports.txt"
KEYS = ["digests", "lines", "status"]
ESCAPES = {b"n": b"\n", b"r": b"\r", b"t": b"\t", b"\\": b"\\"}


def unescaped(text):
    """The bytes that a table writes so."""
    def one(found):
        letter = found[1]
        return bytes([int(letter[1:], 16)]) if letter[:1] == b"x" else ESCAPES[letter]

    return re.sub(rb"\\(x[0-9A-Fa-f]{2}|.)", one, text.encode())


def as_text(data):
    """Bytes as an answer has them: nothing of them where they are no UTF-8."""
    try:
        return data.decode()
    except UnicodeDecodeError:
        return ""


def given(said):
    """The answer that a case gives: its status, and then digests and lines."""
    status, *parts = said.split(" | ")
    answer = {"digests": [], "lines": [], "status": int(status)}
    for part in parts:
        head, _, text = part.partition(":")
        word, _, count = head.partition("*")
        answer[word + "s"] += [as_text(unescaped(text))] * int(count or 1)
    return answer


def differs(line, answer):
    """Why a line isn't this answer, or nothing."""
    try:
        read = json.loads(line)
    except ValueError as error:
        return f"no JSON: {error}"
    if list(read) != KEYS:
        return f"its keys are {list(read)}"
    if read != answer:
        return f"it reads as {read}, and not as {answer}"
    if line != json.dumps(answer, ensure_ascii=False, separators=(",", ":")):
        return "Python writes it otherwise"
    return None


def rows_of(path):
    """The cases of a table: the form that stands above, the name, what is given, and what is wanted."""
    form = ""
    with open(path, encoding="utf-8", newline="\n") as table:
        for row in table.read().split("\n"):
            if row.startswith("form "):
                form = row[5:]
            name, colon, rest = row.partition(": ")
            said, arrow, want = rest.partition(" => ")
            if colon and arrow and not row.startswith("//"):
                yield form, name, said, want


def cases():
    """What differs of each case of the table, by its name."""
    for _, name, said, want in rows_of(TABLE):
        yield name, differs(want, given(said))


def reports():
    """What differs between a report as text and in JSON, by its name."""
    written = {"text": {}, "json": {}}
    for form, name, _, want in rows_of(REPORTS):
        status, _, text = want.partition(" ")
        written[form][name] = int(status), unescaped(text).decode()
    for name, (status, text) in written["text"].items():
        code, line = written["json"].get(name, (None, ""))
        if code != status:
            yield name, f"its status is {code}, and as text {status}"
        elif status in (2, 5):
            yield name, None if line == text else "it isn't its text"
        elif not line.endswith("\n"):
            yield name, "no newline at the end"
        else:
            read = json.loads(line)
            same = "".join(item + "\n" for item in read["lines"]) == text
            yield name, differs(line[:-1], {"digests": ["ab", "cd"], "lines": read["lines"], "status": status}) if same else "its lines are not those of the text"


def examples(program):
    """What differs of each example, run as text and in JSON."""
    for name in sorted(os.listdir(f"{TOP}/examples")):
        folder = f"{TOP}/examples/{name}"
        with open(f"{folder}/words", encoding="utf-8") as it:
            words = it.read().split()
        text = subprocess.run([program, *words], cwd=folder, stdout=subprocess.PIPE)
        line = subprocess.run([program, *words, "json"], cwd=folder, stdout=subprocess.PIPE)
        if line.returncode == 2:
            yield name, "the program takes no word json"
            continue
        # a word that is no file's name is a number
        files = [f"{folder}/{word}" for word in words[1:] if os.path.exists(f"{folder}/{word}")]
        digests = [hashlib.sha256(open(file, "rb").read()).hexdigest() for file in files]
        fetched = len(json.loads(line.stdout)["digests"]) if line.returncode == 4 else len(digests)
        answer = {"digests": digests[:fetched], "lines": text.stdout.decode().split("\n")[:-1], "status": text.returncode}
        if line.returncode != text.returncode:
            yield name, f"its status is {line.returncode}, and as text {text.returncode}"
        elif not line.stdout.endswith(b"\n"):
            yield name, "no newline at the end"
        else:
            yield name, differs(line.stdout[:-1].decode(), answer)


def main(words):
    found = [*cases(), *reports()]
    for program in words:
        found += examples(os.path.abspath(program))
    wrong = [(name, why) for name, why in found if why]
    for name, why in wrong:
        print(f"{name}: {why}", file=sys.stderr)
    print(f"{len(found) - len(wrong)} of {len(found)} read back")
    return 1 if wrong else 0


if __name__ == "__main__":
    sys.exit(main(sys.argv[1:]))
