#!/usr/bin/env python3
"""Proves and builds the program and the crates below it, those that don't need one another side by side.

  build.py            builds, and tells on standard error which crate is done and how long it took; ends with 1 where one
                      isn't proved
  build.py sources    only writes the list of files by which the launcher sees whether the program is older than its code
"""
import concurrent.futures as futures
import os
import subprocess
import sys
import time

TOP = os.path.dirname(os.path.dirname(os.path.abspath(__file__)))
PROGRAM = "goosecheck"
BUILT = f"{TOP}/crates/{PROGRAM}/out/{PROGRAM}"
SOURCES = f"{TOP}/crates/{PROGRAM}/out/sources"


def say(text):
    print(f"goosecheck: {text}", file=sys.stderr, flush=True)


def below(name, needs, found):
    """The crate and all that it stands on, lowest first."""
    for dep in needs[name]:
        if dep in needs and dep not in found:
            below(dep, needs, found)
    found.append(name)
    return found


def needs_of():
    """The lines of crates.txt: each crate with what it stands on."""
    needs = {}
    with open(f"{TOP}/crates.txt", encoding="utf-8") as it:
        for line in it:
            head, colon, deps = line.partition("#")[0].partition(":")
            if colon and head.split():
                needs[head.split()[0]] = deps.split()
    return needs


def write_sources(names):
    """Writes the files that the program is made from, with their folders, whose times change where a file comes or goes."""
    found = []
    for name in names:
        for part in ("src", "specs"):
            for at, folders, files in os.walk(f"{TOP}/crates/{name}/{part}"):
                folders.sort()
                found += [at, *(f"{at}/{it}" for it in sorted(files) if it.endswith((".rt", ".antt")))]
    os.makedirs(os.path.dirname(SOURCES), exist_ok=True)
    lines = "\n".join(os.path.relpath(it, TOP) for it in found)
    with open(SOURCES, "w", encoding="utf-8") as it:
        it.write(f"sources='{lines}'\n")


def made(name):
    """Proves and builds one crate over those below it, and returns what was said where that failed."""
    # without words the program prints its usage line and ends with 2, once it is built
    command = ["rt", "run"] if name == PROGRAM else ["rt", "lib"]
    ran = subprocess.run(command, cwd=f"{TOP}/crates/{name}", stdin=subprocess.DEVNULL,
                         stdout=subprocess.PIPE, stderr=subprocess.STDOUT, text=True, errors="replace")
    is_made = os.access(BUILT, os.X_OK) if name == PROGRAM else ran.returncode == 0
    return None if is_made else ran.stdout


def time_of(seconds):
    return f"{seconds:.0f} s" if seconds < 90 else f"{seconds / 60:.0f} min"


def build(names, needs):
    """Builds the crates, each as soon as those below it stand, and returns whether all could be."""
    done, running, began = set(), {}, {}
    with futures.ThreadPoolExecutor(os.cpu_count()) as pool:
        while len(done) < len(names):
            for name in names:
                if name not in done and name not in running.values() and all(
                        dep in done for dep in needs[name] if dep in needs):
                    began[name] = time.monotonic()
                    running[pool.submit(made, name)] = name
            for it in futures.wait(running, return_when=futures.FIRST_COMPLETED).done:
                name, said = running.pop(it), it.result()
                if said is not None:
                    print(said, file=sys.stderr)
                    say(f"{name} is not proved")
                    pool.shutdown(wait=False, cancel_futures=True)
                    return False
                done.add(name)
                say(f"[{len(done)} of {len(names)}] {name}, {time_of(time.monotonic() - began[name])}")
    return True


def main():
    needs = needs_of()
    names = below(PROGRAM, needs, [])
    write_sources(names)
    if sys.argv[1:] == ["sources"]:
        return 0
    try:
        subprocess.run(["rt", "version"], stdout=subprocess.DEVNULL, check=True)
    except (OSError, subprocess.CalledProcessError):
        say("the program is not built, and there is no rt to build it")
        return 1
    say(f"proving and building {len(names)} crates, which takes some minutes the first time")
    if not build(names, needs):
        return 1
    # the program is as new as its sources, also where none of them is below it
    os.utime(BUILT)
    return 0


if __name__ == "__main__":
    sys.exit(main())
