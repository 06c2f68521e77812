"""Measures clio-sql on three servers: dev/measure-servers [copy | fusion | demo | core | ids].. [SIZE]

For each job (copy and fusion if none is named) it makes a source of SIZE rows (100000 if there is none) on one
PostgreSQL server, which has one processor, runs `clio-sql postgres` there, and then `clio-sql postgres --servers` on
three servers with a processor each, which a fourth one asks; the tools and the fourth have a processor of their own.
It prints a row of a table for each run: seconds by the clock, processor seconds of the busiest server, of all, of the
asked one and of the tool. Both have to make the same rows, by their number and a sum of hashes (a core: by their
number).
"""
import os
import pathlib
import resource
import signal
import subprocess
import sys
import tempfile
import time

from jobs import JOBS, Job
from servers import Postgres

TOP = pathlib.Path(__file__).resolve().parent.parent.parent
SETTINGS = ("-c shared_buffers=512MB -c work_mem=256MB -c maintenance_work_mem=256MB -c max_wal_size=512MB -c jit=off"
            " -c autovacuum=off")
HEAD = "| job | rows | servers | s | busiest, s | all, s | asked, s | tool, s | load |\n"


def bind(server: Postgres, processor: int) -> None:
    """Gives a server one processor."""
    number = (server.base / "data" / "postmaster.pid").read_text().split("\n", 1)[0]
    subprocess.run(["taskset", "-a", "-p", "-c", str(processor), number], stdout=subprocess.DEVNULL, check=True)


def processor_seconds(server: Postgres) -> float:
    """Those of the sessions of a server that have ended."""
    number = (server.base / "data" / "postmaster.pid").read_text().split("\n", 1)[0]
    stat = pathlib.Path("/proc", number, "stat").read_text().rsplit(")", 1)[1].split()
    return (int(stat[13]) + int(stat[14])) / os.sysconf("SC_CLK_TCK")


def own_seconds() -> float:
    """Those of the programs that this one has run."""
    used = resource.getrusage(resource.RUSAGE_CHILDREN)
    return used.ru_utime + used.ru_stime


class Place:
    """Servers that have the rows, and one that is asked, which may be the only one."""

    def __init__(self, folder: pathlib.Path, asked: Postgres, parts: list[Postgres]) -> None:
        self.folder, self.asked, self.parts = folder, asked, parts
        self.words: list[str] = []
        if parts:
            (folder / "servers.txt").write_text("".join(f"{part.place[0]}\n" for part in parts), encoding="utf-8")
            self.words = ["--servers", "servers.txt"]

    def tool(self, *words: str) -> None:
        """Runs clio-sql on the last processor."""
        command = ["taskset", "-c", "3", sys.executable, "-B", str(TOP / "tools/clio-sql"), "postgres", *self.words]
        run = subprocess.run([*command, *words, *self.asked.place], cwd=self.folder, stdin=subprocess.DEVNULL,
                             capture_output=True, text=True, check=False)
        if run.returncode:
            sys.exit(run.stderr)

    def load(self, job: Job, rows: int) -> None:
        """Makes the source."""
        self.asked.clear(self.folder)
        queries = job.make(rows)
        if self.parts:
            self.tool("--source")
            made = "".join(f"INSERT INTO source.{name} {query};\n" for name, query in queries.items())
        else:
            made = "CREATE SCHEMA source;\n" + "".join(f"CREATE TABLE source.{name} AS {query};\n"
                                                       for name, query in queries.items())
        self.asked.run(self.folder, f"{made}ANALYZE;\nCHECKPOINT;\n")

    def measure(self, job: Job, rows: int) -> list[str]:
        """Runs the job, and prints a row; answers what it made."""
        self.load(job, rows)
        time.sleep(1)
        servers = self.parts or [self.asked]
        before, own = [processor_seconds(server) for server in [*servers, self.asked]], own_seconds()
        began = time.monotonic()
        self.tool(*["--core"] * job.core)
        seconds = time.monotonic() - began
        time.sleep(1)  # until the servers have seen their own processes end
        *used, asked = [processor_seconds(server) - then for server, then in zip([*servers, self.asked], before)]
        print(f"| {job.name.split(':')[0]} | {rows:,} | {len(servers)} | {seconds:.1f} | {max(used):.1f} | {sum(used):.1f}"
              f" | {asked if self.parts else 0:.1f} | {own_seconds() - own:.1f} | {os.getloadavg()[0]:.0f} |", flush=True)
        names = self.asked.run(self.folder, "SELECT relname FROM pg_class WHERE relnamespace = 'target'::regnamespace"
                                            " AND relkind IN ('r', 'p') ORDER BY relname").split()
        hashes = "0" if job.core else "sum(hashtext(t::text))"
        return [name + self.asked.run(self.folder, f'SELECT count(*), {hashes} FROM target."{name}" AS t')
                for name in names]


def main(words: list[str]) -> None:
    signal.signal(signal.SIGTERM, lambda *_: sys.exit(143))  # so that the servers are stopped in any case
    rows = next((int(word) for word in words if word.isdigit()), 100_000)
    with tempfile.TemporaryDirectory() as name:
        top = pathlib.Path(name)
        top.chmod(0o755)
        servers: list[Postgres] = []
        try:
            for processor, server in enumerate(["one", "two", "three", "asked"]):
                servers.append(Postgres(top, server, SETTINGS))
                bind(servers[-1], processor)
            print(HEAD + "|---" * 9 + "|", flush=True)
            names = [word for word in words if not word.isdigit()] or ["copy", "fusion"]
            for job in [job for job in JOBS if job.name.split(":")[0] in names]:
                folder = top / "job"
                folder.mkdir(exist_ok=True)
                (folder / "mapping.clio").write_text(job.text, encoding="utf-8")
                one = Place(folder, servers[0], []).measure(job, rows)
                servers[0].clear(folder)
                several = Place(folder, servers[3], servers[:3]).measure(job, rows)
                if one != several:
                    sys.exit(f"{job.name}: {one} by one server, {several} by three")
        finally:
            for started in servers:
                started.stop()


if __name__ == "__main__":
    main(sys.argv[1:])
