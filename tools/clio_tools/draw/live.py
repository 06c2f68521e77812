"""A live run: what clio makes of a text, on a sample of the source or on the whole of it."""
import itertools
import pathlib
import re
import shutil
import time

from ..csv import records
from ..explain.traps import Traps, wanted
from ..mapping.meaning import Mapping, read_mapping
from ..mapping.rules import TooLarge, closed
from ..mapping.rules import printed as printed_rule
from ..program import Refused, ending
from ..why.exchange import is_null
from . import faults
from .clashing import of_clash
from .cures import of_remark, of_warning
from .examples import Examples
from .meant import Meant, meant
from .outline import Data, Outline
from .reasons import Reasons
from .running import Ended, Runner, Stopped
from .sample import Report, Sampler
from .words import in_words

CLASH, ROWS = 3, 5  # statuses that clio ends with
SHOWN = 100  # rows of each table that are passed on at once
OF_ALL_SETS = tuple(f"limit: {count} " for count in ("lines", "variants", "occurrences", "ways", "candidates", "rules"))
CELLS = 12_000  # so many cells are passed on at once of all tables


class KnownTraps(Traps):
    """The warnings of clio-explain on a mapping whose rules are known already."""

    def __init__(self, mapping: Mapping, printed: list[str], written: Mapping) -> None:
        # its base would read the text and ask clio for the rules once more
        self.mapping, self.printed = mapping, printed
        self.source, self.target, self.rules = mapping.source, mapping.target, mapping.rules
        self.lines = written.lines
        self.by_hand = set()
        for rule in written.rules:
            try:
                self.by_hand.add(printed_rule(closed(rule, self.target), self.source, self.target))
            except TooLarge:
                pass


class Live:
    """The last run of a folder's text, in the current folder."""

    def __init__(self, folder: pathlib.Path, runner: Runner) -> None:
        self.folder, self.runner, self.sampler = folder, runner, Sampler(folder)
        self.number = 0
        self.content, self.core = b"", False
        self.meant = Meant(b"")
        self.mapping: Mapping | None = None
        self.written: Mapping | None = None
        self.printed: list[str] = []
        self.report: Report = {}
        self.reasons: Reasons | None = None
        self.shown = SHOWN

    def run(self, text: str, core: bool, rows: int | None) -> Data:
        """Runs `show` and `exchange` on a text, on so many rows of large files or on all."""
        began = time.monotonic()
        self.content, self.core = text.encode(), core
        self.mapping = self.reasons = None
        self.number += 1
        made: Data = {"run": self.number, "rules": None, "fault": None, "stopped": None, "tables": None, "sources": {},
                      "drawing": False, "remarks": [], "aside": [], "limit": None, "whole": rows is None}
        shutil.rmtree("out", ignore_errors=True)
        if not self._mean(meant(self.content), made):
            return made
        try:
            if self._show(made):
                self._exchange(made, rows)
        except Stopped as why:
            made["stopped"] = str(why)
        made["seconds"] = time.monotonic() - began
        return made

    def _mean(self, taken: Meant, made: Data) -> bool:
        """The mapping for clio, with what is said of it; or the faults of the drawing."""
        self.meant = taken
        made["drawing"] = taken.is_drawing
        if taken.faults:
            made["fault"] = faults.of_drawing(taken.faults, self.content)
            return False
        pathlib.Path("mapping.clio").write_bytes(taken.content)
        if taken.aside:
            made["aside"] = faults.aside(taken.aside, self.content)
        if taken.remarks:
            outline = Outline(self.content)
            made["remarks"] = [{"lines": [{"text": one.said}], "cures": of_remark(one, outline)}
                               for one in taken.remarks]
        return True

    def _shown_rules(self, made: Data) -> bytes | None:
        """What clio shows; or its refusal. If a mapping without notes exceeds a limit, that is said, and its sets have
        the rows that each has by itself, as in a drawing."""
        words = ["show", *self._mode()]
        ended = self.runner.run(*words)
        if ended.status == 0:
            return ended.printed
        fault = self._fault(ended, words)
        if not self.meant.is_drawing and ended.message.startswith(OF_ALL_SETS) \
                and self._mean(meant(self.content, set_by_set=True), made):
            ended = self.runner.run(*words)
            if ended.status == 0:
                made["limit"] = fault
                return ended.printed
        made["fault"] = fault
        return None

    def _show(self, made: Data) -> bool:
        """The rules of the text; or its fault."""
        printed = self._shown_rules(made)
        if printed is None:
            return False
        lines = [line for line in printed.split(b"\n") if line.startswith(b"rule ")]
        self.printed = [line.decode() for line in lines]
        content = self.meant.content
        self.written = read_mapping(content)
        self.mapping = read_mapping(content[:self.written.end_of_sets] + b"\n" + b"\n".join(lines))
        self.mapping.conditions = self.written.conditions
        self.mapping.lines = self.written.lines
        made["rules"] = [self._rule(number) for number in range(len(lines))]
        return True

    def _mode(self) -> list[str]:
        return ["--core"] if self.core else []

    def _rule(self, number: int) -> Data:
        """A rule in words; one of a drawing with the lines and the `rows` behind it."""
        assert self.mapping is not None
        rule, behind = self.mapping.rules[number], self.meant.behind_rule(number)
        words = in_words(rule, self.mapping, behind.lines if behind else [] if self.meant.is_drawing else None)
        return {"text": self.printed[number], "words": words, "says": behind.says if behind else "",
                "rows": behind.rows if behind else None,
                "by_hand": not words["lines"] and behind is None and not number < self.meant.plain}

    def _exchange(self, made: Data, rows: int | None) -> None:
        """The rows of the target; or the fault of the run."""
        assert self.mapping is not None
        mapping, self.mapping = self.mapping, None
        self.report = self.sampler.prepare(mapping, self.meant, rows)
        made["sources"] = {name: one.as_data() for name, one in self.report.items() if one.kind != "test"}
        words = ["exchange", *self._mode()]
        ended = self.runner.run(*words)
        if ended.status == ROWS and any(one.places for one in self.report.values()):
            self.report = self.sampler.prepare(mapping, self.meant, None)  # its message has the place in the whole file
            ended = self.runner.run(*words)
        if ended.status != 0:
            made["fault"] = self._fault(ended, words) if ended.status != CLASH else \
                of_clash(ended.message, mapping, self.printed, self.meant.content, self._shown(), Outline(self.content))
            return
        self.mapping = mapping
        counts = dict(re.findall(rb"^(\S+)\.csv ([0-9]+)$", ended.printed, re.MULTILINE))
        columns = sum(len(table.columns) for table in mapping.target)
        self.shown = max(5, min(SHOWN, CELLS // max(columns, 1)))
        made["tables"] = {table.name: self.rows(table.name, 0) | {"count": int(counts[table.name.encode()])}
                          for table in mapping.target}

    def _shown(self) -> faults.Shown:
        """How explanations are shown: of a drawing they have no places, since clio speaks of the printed mapping."""
        return faults.Shown(None if self.meant.is_drawing else self.content, self.report)

    def _fault(self, ended: Ended, words: list[str]) -> Data:
        """A refusal."""
        made = faults.of_clio(ended.status, ended.message, words, self._shown())
        if self.meant.is_drawing and ended.message.startswith("mapping: "):
            made["message"] = f"the mapping that the drawing means is refused: {ended.message}"
        return made

    def rows(self, name: str, start: int) -> Data:
        """Some rows of a target table that was written; which of them hold nothing but nulls."""
        entries = records(pathlib.Path("out", f"{name}.csv").read_bytes())
        columns = next(entries)[1]
        rows = [fields for _, fields in itertools.islice(entries, start, start + self.shown)]
        empty = [start + place for place, fields in enumerate(rows) if fields and all(map(is_null, fields))]
        return {"columns": columns, "rows": rows, "empty": empty}

    def more(self, table: str, start: int) -> Data:
        """More rows of a table."""
        if self.mapping is None or table not in [one.name for one in self.mapping.target]:
            return {"error": "there are no rows"}
        return self.rows(table, start)

    def warnings(self) -> Data:
        """What clio-explain warns of: after the rows, since it takes longer than they do. Before anything is drawn it
        would warn of each set."""
        if self.mapping is None or self.written is None or not self.printed:
            return {"warnings": []}
        traps = KnownTraps(self.mapping, self.printed, self.written)
        outline, shown = Outline(self.content), self._shown()
        found: list[Data] = []
        try:
            for one in wanted(itertools.chain(traps.of_mapping(), traps.of_data(self.core)), self.content):
                found.append({"name": one.name, "set": one.set, "lines": shown.pieces(one.pieces),
                              "cures": of_warning(one, outline)})
        except (Exception, MemoryError) as error:  # pylint: disable=broad-except
            said = shown.pieces([f"no more warnings: {ending(error)[1]}"])
            found.append({"name": "", "set": "", "cures": [], "lines": said})
        return {"warnings": found}

    # --- reasons -----------------------------------------------------------------------------------------------------

    def known(self) -> Reasons | str:
        """What knows the reasons of the last run, or why there is nothing."""
        if self.mapping is None:
            return "there is no target"
        if self.reasons is None:
            try:
                self.reasons = Reasons(pathlib.Path.cwd(), self.meant, self.report, self.content)
            except Refused as why:
                return str(why)
        return self.reasons

    def why(self, table: str, row: list[str]) -> Data:
        """Why a row is in the target."""
        known = self.known()
        return {"unknown": known} if isinstance(known, str) else known.of_row(table, row)

    def sources(self) -> Data:
        """The rows of the source with what became of them."""
        known = self.known()
        return {"error": known} if isinstance(known, str) else {"tables": known.source_tables(self.shown)}

    def groups(self, table: str) -> Data:
        """The rows of a target table, those that are there for one reason together."""
        known = self.known()
        return {"error": known} if isinstance(known, str) else known.groups(table)

    def examples(self) -> Data:
        """Chosen examples of what the mapping does."""
        known = self.known()
        return {"error": known} if isinstance(known, str) else {"examples": Examples(known).made()}

    def forward(self, table: str, row: int) -> Data:
        """Which rows of the target a source row has part in."""
        known = self.known()
        return {"error": known} if isinstance(known, str) else known.of_source_row(table, row)
