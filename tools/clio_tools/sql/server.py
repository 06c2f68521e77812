"""One of several PostgreSQL servers, and how it becomes known to the database that is asked."""
import hashlib
from collections.abc import Iterator, Sequence

from clio_tools.databases import postgres
from clio_tools.databases.postgres import literal
from clio_tools.program import Refused
from clio_tools.sql.moving import Member
from clio_tools.sql.postgres import LEFT, LOCK, OF_PARTS, SETTINGS, UNLOCK, WORK
from clio_tools.sql.session import Log, Session
from clio_tools.sql.work import Row

OPTIONS = "async_capable 'true', use_remote_estimate 'true', fetch_size '10000', batch_size '1000'"
LEADING = "host", "hostaddr", "port", "dbname", "service"  # words of a connection that say where it leads
READS = "BEGIN ISOLATION LEVEL REPEATABLE READ"


def reached(lines: Sequence[str]) -> list[postgres.Place]:
    """How the servers of a list are reached; of a line that says it otherwise the number alone is reported, as it may
    hold a password."""
    postgres.library()  # what is missing is said as such, and not as a fault of a line
    places = []
    for number, line in enumerate(lines, 1):
        if not line.strip():
            continue
        try:
            if "=" not in line and "://" not in line:
                raise Refused("")
            places.append(postgres.place_of(line.strip()))
        except Refused:
            raise Refused(f"line {number} of the servers is neither words as libpq knows them, such as host=db1"
                          " dbname=parts, nor a URI") from None
    if not places or len({sign(place) for place in places}) < len(places):
        raise Refused("the list has no server, or one twice")
    return places


def sign(place: postgres.Place) -> str:
    """The name of a server, which doesn't depend on who asks."""
    words = sorted((word, value) for word, value in place.words.items() if word != "user")
    return "clio_" + hashlib.sha256(repr(words).encode()).hexdigest()[:12]


def leading(words: dict[str, str]) -> dict[str, str]:
    """The words of a connection that say where it leads."""
    return {word: value for word, value in words.items() if word in LEADING}


def options(words: dict[str, str]) -> str:
    """Words of a connection as the options of a server."""
    return ", ".join(f"{word} {literal(value)}" for word, value in words.items())


class Server:
    """One of the servers, which has a part of each table."""

    def __init__(self, place: postgres.Place, number: int, run: str, log: Log) -> None:
        """Reaches the server of a number in the list; a run has a schema there."""
        self.place, self.sign, self.run = place, sign(place), f"{run}_{number}"
        which = f"server {number + 1} of the list: "
        self.sessions = self.session, self.sending = Session(place, log, which), Session(place, log, which)
        for session in self.sessions:
            session.begin_with(f"{SETTINGS}; SET search_path = {self.run}")
        if not self.session.values(f"SELECT pg_try_advisory_lock({LOCK + 1})")[0][0]:
            raise Refused(f"another run of clio-sql is under way on server {number + 1} of the list, or it is there"
                          " twice")
        for name, in self.session.values(LEFT.format(kind=OF_PARTS, work=literal(WORK), but=literal(run))):
            self.session.made(f'DROP SCHEMA "{name}" CASCADE')

    @property
    def member(self) -> Member:
        """Its sessions, as rows are moved."""
        return Member(self.session, self.sending)

    def reading(self) -> Member:
        """The same, with one state of what is there."""
        self.sending.made(READS)
        snapshot = self.sending.values("SELECT pg_export_snapshot()")[0][0]
        return self.member._replace(begin=f"{READS}; SET TRANSACTION SNAPSHOT '{snapshot}'")

    def schema(self, kind: str) -> str:
        """Where its parts of some kind are: those of the source or the target, or work tables."""
        return self.run if kind == "work" else f"{self.sign}_{kind}"

    def link(self, kind: str) -> str:
        """Where these have their names in the database that is asked."""
        return f"{self.schema(kind)}_link"

    def make_schemas(self) -> None:
        """Makes its schemas."""
        for kind in "source", "target", "work":
            self.session.made(f"CREATE SCHEMA IF NOT EXISTS {self.schema(kind)}")
        self.session.made(f"COMMENT ON SCHEMA {self.run} IS {literal(WORK)}")

    def close(self, parts: Sequence[str]) -> bool:
        """Ends the sessions; drops what was worked on, and parts of a target; answers whether the parts are dropped."""
        self.session.attempt(f"DROP SCHEMA IF EXISTS {self.schema('work')} CASCADE")
        dropped = [self.session.attempt(f'DROP TABLE IF EXISTS {self.schema("target")}."{part}"') for part in parts]
        self.session.attempt(UNLOCK)
        self.session.close()
        return all(dropped)

    def is_known_as(self, found: Sequence[Row]) -> bool:
        """Whether the options of the server as it is known where it is asked lead here."""
        return leading({str(option): str(value) for option, value in found}) == leading(self.place.words)

    def made_known(self) -> Iterator[str]:
        """What makes the server known to the one that is asked; the last has the password."""
        words = {word: value for word, value in self.place.words.items() if word != "user"}
        user = {"user": self.place.words["user"]} if "user" in self.place.words else {}
        listed = ", ".join(filter(None, [options(words), OPTIONS]))
        yield f"CREATE SERVER IF NOT EXISTS {self.sign} FOREIGN DATA WRAPPER postgres_fdw OPTIONS ({listed})"
        found = options({**user, **self.place.secrets})
        yield (f"DROP USER MAPPING IF EXISTS FOR CURRENT_USER SERVER {self.sign};"
               f" CREATE USER MAPPING FOR CURRENT_USER SERVER {self.sign}" + (f" OPTIONS ({found})" if found else ""))
