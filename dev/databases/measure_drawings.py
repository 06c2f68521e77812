"""Measures stars: dev/measure-drawings LINKS ROWS [--lookup] [--sql]

A set of facts with so many optional links, each to a set of ten rows, and one line from each. Says how long clio-rules
and clio take, or what is refused; and looks whether each value is that of its own link. With --sql clio-sql takes the
place of clio, in a PostgreSQL server of its own.
"""
import csv
import pathlib
import subprocess
import sys
import tempfile
import time

from servers import Postgres

TOP = pathlib.Path(__file__).resolve().parent.parent.parent


def star(folder: pathlib.Path, links: int, rows: int, looks_up: bool) -> None:
    """The drawing and its files: link n of row r leads to row r + n of twelve, of which ten are there."""
    keys, values = (", ".join(f"{letter}{n}" for n in range(links)) for letter in "kv")
    refs = "".join(f" ref (k{n}) -> d{n} (id) optional;" for n in range(links))
    sets = "".join(f"set d{n} {{ id, v; }}\n" for n in range(links))
    lines = "".join(f"line d{n}.v -> t.v{n};\n" for n in range(links))
    lookup = f"lookup {', '.join(f'd{n}' for n in range(links))};\n" if looks_up else ""
    (folder / "drawing.clio").write_text(
        f"mapping 2;\nsource {{\nset f {{ no, {keys};{refs} }}\n{sets}}}\ntarget "
        f"{{ set t {{ no, {values}; key (no); }} }}\n"
        f"rows t from f;\nline f.no -> t.no;\n{lines}{lookup}", encoding="utf-8")
    with open(folder / "f.csv", "w", encoding="utf-8") as file:
        file.write(f"no,{keys}\n".replace(" ", ""))
        file.writelines(f"{row},{','.join(str((row + n) % 12) for n in range(links))}\n" for row in range(rows))
    for n in range(links):
        text = "id,v\n" + "".join(f"{row},{n}-{row}\n" for row in range(10))
        (folder / f"d{n}.csv").write_text(text, encoding="utf-8")


def timed(folder: pathlib.Path, *words: str | pathlib.Path) -> bool:
    """Runs a program, and says how long it took; whether it ended well."""
    started = time.time()
    done = subprocess.run(words, cwd=folder, capture_output=True, text=True, check=False)
    what = f"status {done.returncode}: {done.stderr.strip()}" if done.returncode else f"{time.time() - started:.1f} s"
    print(f"{pathlib.Path(words[0]).name} {' '.join(map(str, words[1:]))}: {what}")
    return done.returncode == 0


def differing(folder: pathlib.Path, links: int) -> int:
    """How many values are not what their links say."""
    count = 0
    with open(folder / "out" / "t.csv", newline="", encoding="utf-8") as file:
        for row in list(csv.reader(file))[1:]:
            for n in range(links):
                place = (int(row[0]) + n) % 12
                count += row[n + 1] != f"{n}-{place}" if place < 10 else not row[n + 1].startswith("?")
    return count


def by_sql(folder: pathlib.Path, links: int) -> None:
    """Loads the files into a server and runs clio-sql there."""
    with tempfile.TemporaryDirectory() as name:
        top = pathlib.Path(name)
        top.chmod(0o755)
        server = Postgres(top, settings="-c work_mem=256MB -c shared_buffers=512MB -c max_wal_size=512MB -c jit=off")
        try:
            server.load_source(folder)
            if timed(folder, sys.executable, TOP / "tools" / "clio-sql", "postgres", *server.place):
                tests = " + ".join(wrong_value(n) for n in range(links))
                print(f"  {server.run(folder, f'SELECT count(*), sum({tests}) FROM target.t').strip()} rows, and values "
                      f"that differ")
        finally:
            server.stop()


def wrong_value(n: int) -> str:
    """1 if the value of a link isn't its own, in SQL."""
    place = f"(no::bigint + {n}) % 12"
    return f"CASE WHEN {place} < 10 THEN (v{n} <> '{n}-' || {place})::int ELSE (v{n} NOT LIKE '?%')::int END"


def main() -> None:
    """Makes a star and runs it."""
    links, rows = int(sys.argv[1]), int(sys.argv[2])
    program = subprocess.run([TOP / "dev" / "program"], capture_output=True, text=True, check=True).stdout.strip()
    with tempfile.TemporaryDirectory() as name:
        folder = pathlib.Path(name)
        star(folder, links, rows, "--lookup" in sys.argv)
        large = ["--large"] * ("--sql" in sys.argv)
        written = timed(folder, TOP / "tools" / "clio-rules", "--write", *large)
        if written and large:
            by_sql(folder, links)
        elif written:
            for words in (["exchange"], ["exchange", "--core"]):
                if timed(folder, program, *words):
                    print(f"  {differing(folder, links)} values differ")


if __name__ == "__main__":
    main()
