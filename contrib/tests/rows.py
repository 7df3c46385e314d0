"""Rows of a try: what came, beside what has to come; and a room for calls over files and stand-ins."""
import os
import shutil
import subprocess
import tempfile

FAILED, PASSED = [], []


def row(name, got, wanted):
    """Judges one row: what came, and what has to."""
    if got == wanted:
        PASSED.append(name)
    else:
        FAILED.append(name)
        print(f"{name}:\n  wanted {repr(wanted)[:2000]}\n  got    {repr(got)[:2000]}", flush=True)


def write(path, text, mode=0o644):
    os.makedirs(os.path.dirname(path), exist_ok=True)
    with open(path, "w", encoding="utf-8") as out:
        out.write(text)
    os.chmod(path, mode)


class Room:
    """A folder with stand-ins that are found first on the path, and a folder for files of a while that has to stay empty."""

    def __init__(self):
        self.top = tempfile.mkdtemp(prefix="contrib-try-")
        self.env = {"PATH": f"{self.top}/bin:{os.environ['PATH']}", "TMPDIR": f"{self.top}/tmp", "HOME": self.top, "LC_ALL": "C.UTF-8"}
        os.makedirs(f"{self.top}/tmp")
        os.makedirs(f"{self.top}/bin")

    def stand_in(self, name, script):
        write(f"{self.top}/bin/{name}", f"#!/bin/sh\n{script}\n", 0o755)

    def call(self, *words, given="", folder=None, **more):
        """Runs a call to its end, 20 seconds at most: its status, and what it printed on both outputs."""
        try:
            ran = subprocess.run(words, input=given, capture_output=True, text=True, timeout=20, cwd=folder or self.top, env={**self.env, **more})
        except subprocess.TimeoutExpired:
            return None, "", "it does not end"
        return ran.returncode, ran.stdout, ran.stderr

    def end(self):
        shutil.rmtree(self.top)


def end():
    """Prints how many rows passed; the status is 1 where one failed."""
    print(f"{len(PASSED)} passed, {len(FAILED)} failed")
    return 1 if FAILED else 0
