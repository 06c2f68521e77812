"""Measures clio-sql in PostgreSQL: dev/measure-sql [copy | fusion | demo | core | ids].. [SIZE..] [--sessions N]

For each job (all if none is named) and each number of rows in the source (100000 if there is none) it makes the
source in a server of its own in a temporary folder, runs `clio-sql postgres`, SQL by hand for the same (jobs.py) and
clio, one after the other, and prints a row of a table: seconds by the clock and of processors (of server and tool),
how the second grew over how much the size did, and how much disk the server took at most. All have to make the same
rows, by their number and a sum of hashes (clio: by their number).
"""
import os
import pathlib
import resource
import shutil
import signal
import subprocess
import sys
import tempfile
import threading
import time
from typing import Any

from jobs import JOBS, Job
from servers import Postgres, output

TOP = pathlib.Path(__file__).resolve().parent.parent.parent
SETTINGS = ("-c shared_buffers=512MB -c work_mem=256MB -c maintenance_work_mem=256MB -c max_wal_size=512MB -c jit=off"
            " -c autovacuum=off")
CLIO_TAKES = 1_500_000  # rows; of more it refuses each job
HEAD = "| job | rows | clio-sql: s, processor s | growth | disk, GB | by hand | clio-sql / by hand | clio | load |\n"


class Disk(threading.Thread):
    """Looks every second how much disk a folder takes."""

    def __init__(self, folder: pathlib.Path) -> None:
        super().__init__(daemon=True)
        self.folder, self.most, self.ended = folder, 0, threading.Event()

    def run(self) -> None:
        while not self.ended.wait(1):
            said = subprocess.run(["du", "-s", "-k", self.folder], capture_output=True, text=True, check=False).stdout
            self.most = max(self.most, int(said.split()[0]) * 1024)


class Run:
    """A command in a folder: what it printed, and its seconds, by the clock and of processors, the server's with
    them."""

    def __init__(self, command: list[Any], folder: pathlib.Path, server: Postgres) -> None:
        before, began = self.processors(server), time.monotonic()
        done = subprocess.run(command, cwd=folder, stdin=subprocess.DEVNULL, capture_output=True, text=True,
                              check=False)
        self.seconds = time.monotonic() - began
        time.sleep(1)  # until the server has seen its own processes end
        self.processor = self.processors(server) - before
        self.refused, self.said, self.told = done.returncode != 0, done.stdout, done.stderr

    @staticmethod
    def processors(server: Postgres) -> float:
        """The processor seconds of this program's children and of the server's that have ended."""
        used = resource.getrusage(resource.RUSAGE_CHILDREN)
        number = (server.base / "data" / "postmaster.pid").read_text().split("\n", 1)[0]
        stat = pathlib.Path("/proc", number, "stat").read_text().rsplit(")", 1)[1].split()
        return used.ru_utime + used.ru_stime + (int(stat[13]) + int(stat[14])) / os.sysconf("SC_CLK_TCK")

    def shown(self) -> str:
        """Its seconds."""
        return f"{self.seconds:.1f}, {self.processor:.1f}"


class Measured:
    """A job at a size."""

    def __init__(self, server: Postgres, folder: pathlib.Path, job: Job, rows: int, words: list[str]) -> None:
        self.server, self.folder, self.job, self.rows, self.words = server, folder, job, rows, words
        shutil.rmtree(folder, ignore_errors=True)
        folder.mkdir()
        (folder / "mapping.clio").write_text(job.text, encoding="utf-8")
        server.clear(folder)
        tables = "".join(f"CREATE TABLE source.{name} AS {query};\nANALYZE source.{name};\n"
                         for name, query in job.make(rows).items())
        server.run(folder, f"CREATE SCHEMA source;\n{tables}CHECKPOINT;\n")

    def by_tool(self) -> tuple[Run, float]:
        """The run of clio-sql, and the most gigabytes of disk."""
        disk = Disk(self.server.base)
        disk.start()
        words = ["postgres", *["--core"] * self.job.core, *self.words, *self.server.place]
        run = Run([sys.executable, "-B", TOP / "tools/clio-sql", *words], self.folder, self.server)
        disk.ended.set()
        disk.join()
        if run.refused:
            sys.exit(f"{self.job.name}, {self.rows} rows: {run.told}")
        return run, disk.most / 1e9

    def by_hand(self) -> Run:
        """The run of the SQL by hand, whose tables have to be those of clio-sql."""
        self.server.run(self.folder, "SET client_min_messages = error; DROP SCHEMA IF EXISTS hand CASCADE;"
                                     "CREATE SCHEMA hand; CHECKPOINT")
        (self.folder / "hand.sql").write_text(self.job.by_hand)
        words = ["psql", "-X", "-q", "-v", "ON_ERROR_STOP=1", "-f", "hand.sql", *self.server.place]
        run = Run(words, self.folder, self.server)
        if run.refused:
            sys.exit(f"{self.job.name} by hand: {run.told}")
        made = [line for line in self.job.by_hand.split("\n") if line.startswith("CREATE TABLE")]
        names = [line.split()[2].removeprefix("hand.") for line in made]
        hashes = "0" if self.job.core else "sum(hashtext(t::text))"  # by hand other nulls stay in a core
        for name in names:
            one, other = (self.server.run(self.folder, f"SELECT count(*), {hashes} FROM {schema}.{name} AS t")
                          for schema in ("target", "hand"))
            if one != other:
                sys.exit(f"{self.job.name}, {self.rows} rows: {name} has {one.strip()}, and by hand {other.strip()}")
        return run

    def by_clio(self, made: str) -> str:
        """What clio takes for the same, or that it refuses."""
        if self.rows > CLIO_TAKES:
            return ""
        for name in self.job.make(self.rows):
            self.server.run(self.folder, f"\\copy source.{name} TO {name}.csv WITH (FORMAT csv, HEADER)\n")
        run = Run([PROGRAM, "exchange", *["--core"] * self.job.core], self.folder, self.server)
        if run.refused:
            return f"`{run.told.strip()}`"
        rows = {line.split()[0].removesuffix(".csv"): line.split()[1] for line in run.said.splitlines()}
        for line in made.splitlines():
            if rows[line.split()[0]] != line.split()[1]:
                sys.exit(f"{self.job.name}, {self.rows} rows: {line}, and clio has {rows[line.split()[0]]}")
        return run.shown()


def measure(measured: Measured, before: tuple[int, float] | None) -> tuple[int, float]:
    """Prints one row of the table."""
    rows = measured.rows
    run, disk = measured.by_tool()
    hand = measured.by_hand()
    clio = measured.by_clio(run.said)
    growth = f"{run.processor / before[1] / (rows / before[0]):.2f}" if before else ""
    ratio = run.processor / hand.processor
    print(f"| {measured.job.name} | {rows:,} | {run.shown()} | {growth} | {disk:.1f} | {hand.shown()} | {ratio:.1f}"
          f" | {clio} | {os.getloadavg()[0]:.0f} |", flush=True)
    return rows, run.processor


def main(words: list[str]) -> None:
    signal.signal(signal.SIGTERM, lambda *_: sys.exit(143))  # so that the server is stopped in any case
    jobs, for_tool = (words[:words.index("--sessions")], words[words.index("--sessions"):]) if "--sessions" in words \
        else (words, [])
    with tempfile.TemporaryDirectory() as name:
        top = pathlib.Path(name)
        top.chmod(0o755)
        server = Postgres(top, settings=SETTINGS)
        try:
            print(HEAD + "|---" * 9 + "|", flush=True)
            for job in [job for job in JOBS if job.name.split(":")[0] in jobs] or JOBS:
                before = None
                for rows in [int(word) for word in jobs if word.isdigit()] or [100_000]:
                    before = measure(Measured(server, top / "job", job, rows, for_tool), before)
        finally:
            server.stop()


if __name__ == "__main__":
    PROGRAM = output([TOP / "dev/program"], TOP).strip()
    main(sys.argv[1:])
