"""Prints the SQL of an exchange and runs none of it: each question is answered so that most follows, and loops are
printed once."""
from collections.abc import Sequence

from clio_tools.sql.words import Words
from clio_tools.sql.work import Made, Row, Whole


class Plan(Whole):
    """Statements as they would be run."""
    is_plan = is_one_snapshot = True

    def __init__(self, words: Words) -> None:
        self.words = words
        self.say(f"-- SQL of {words.name}, in the order in which clio-sql runs it. A query by itself is a question;")
        self.say("-- what follows depends on its answer, and is printed as if all could be so. Loops are printed once.")
        self.say("-- Work tables are in a schema of the run's own.")
        if not words.was_run:
            self.say(f"-- It was never run: its words for {words.name} are those of the manual of that engine.")

    def say(self, text: str) -> None:
        """Prints a line."""
        print(text)

    def prepare(self, tables: dict[str, list[str]]) -> None:
        """Nothing is there."""

    def run(self, sql: str) -> int:
        self.say(sql + ";")
        return -1

    def rows(self, sql: str, assumed: Sequence[Row]) -> Sequence[Row]:
        self.say(sql + ";")
        return assumed

    def make(self, table: Made) -> int:
        self.run(f"CREATE {self.words.table} {table.name} AS {table.query}")
        if self.words.has_statistics:
            self.run(f"ANALYZE {table.name}")
        return -1

    def make_all(self, tables: Sequence[Made]) -> list[int]:
        return [self.make(table) for table in tables]

    def load(self, name: str, columns: Sequence[str], rows: Sequence[Row]) -> None:
        self.run(f"CREATE {self.words.table} {name} ({', '.join(columns)})")

    def write(self, name: str, columns: Sequence[str], parts: Sequence[str]) -> None:
        self.run(f'CREATE TABLE target."{name}" AS {" UNION ALL ".join(parts)}')

    def publish(self) -> dict[str, int]:
        self.say("-- The tables of the target are made beside those that are there, and put in their place at the end.")
        return {}

    def close(self) -> None:
        """Nothing was made."""
