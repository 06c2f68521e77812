"""Runs the program in a folder of its own."""
import os
import shutil
import subprocess
import tempfile
from dataclasses import dataclass


SECONDS = 30  # what ends later than this is told, but is no difference


@dataclass
class Run:
    """What one run left: status, standard output, standard error, and the files in `out`."""
    status: int
    said: str
    told: str
    files: dict


class Folder:
    """A new folder with some files."""

    def __init__(self, files):
        self.path = tempfile.mkdtemp(prefix="second_reading_")
        for name, content in files.items():
            self.write(name, content)

    def inside(self, name):
        return os.path.join(self.path, name)

    def write(self, name, content):
        """Writes a text or bytes, in folders that are made where they are missing."""
        os.makedirs(os.path.dirname(self.inside(name)), exist_ok=True)
        with open(self.inside(name), "wb") as file:
            file.write(content.encode() if isinstance(content, str) else content)

    def block(self, name):
        """Makes `out` anew so that this file in it, or without a name `out` itself, can't be written."""
        shutil.rmtree(self.inside("out"), ignore_errors=True)
        if name is None:
            self.write("out", "")
        else:
            os.makedirs(self.inside("out/" + name))

    def run(self, program, words, sweep=True):
        """Runs the program, after a run before it was swept away."""
        if sweep and os.path.exists(self.inside("out")):
            shutil.rmtree(self.inside("out"), ignore_errors=True)
        ended = subprocess.run([program] + words, cwd=self.path, stdin=subprocess.DEVNULL, capture_output=True,
                               timeout=SECONDS)
        return Run(ended.returncode, decoded(ended.stdout), decoded(ended.stderr), self.written())

    def written(self):
        """The files in `out`."""
        files = {}
        if os.path.isdir(self.inside("out")):
            for name in os.listdir(self.inside("out")):
                if os.path.isfile(self.inside("out/" + name)):
                    with open(self.inside("out/" + name), "rb") as file:
                        files[name] = decoded(file.read())
        return files

    def remove(self):
        shutil.rmtree(self.path, ignore_errors=True)


def decoded(content):
    return content.decode("utf-8", "surrogateescape")
