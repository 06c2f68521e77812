"""Damaged folders and odd words: in which way the program must end."""
import re

from checks import CaseCheck, holds, same
from damage import damage_file
from folders import Rows, folder_mapping
from random_cases import Case
from refusals import WRITE_FAULT, Refusal, TooLong, Unsure

COUNTS = ("text bytes|data bytes|tables|columns|depth|lines|variants|occurrences|ways|candidates|rules|source cells|"
          "target cells|frozen cells|query bytes|query atoms|answer cells|given cells")
USAGE = ("usage: clio show [--core] | clio exchange [--core] [--nested] | clio demo N [--core] | clio answer | clio judge | "
         "clio compare")
STRING = r'"(?:[^"\\]|\\.)*"'
TEXT_FAULT = r"(bad character|unexpected token|text ended|unknown name|wrong number of cells|unsafe variable) at byte \d+"
MAPPING_FAULT = TEXT_FAULT + (r"|(source|target): (double name|no column in|unknown name|cyclic links at|bad link in) \w+"
                              r"|target: reserved name (nulls|fold)")
MESSAGES = {  # for each status the form of its message
    2: re.escape(USAGE),
    3: r"clash: table \w+, key \([#\w, ]+\): %s and %s in column [#\w]+" % (STRING, STRING),
    4: r"mapping: (mapping\.clio is absent|%s)" % MAPPING_FAULT,
    5: r"rows: (given/)?[\w.]+(\.csv|\.json)( is absent|: (no header|header at column \d+|width of record \d+|"
       r"record \d+ is not (text|a value)|not JSON|(wrong shape|number|unknown member) at .*))",
    6: r"limit: (%s) \d+" % COUNTS,
    7: r"read fault: (given/)?[\w.]+",
    8: r"write fault: \d+ files written",
    10: r"query: (query\.clio is absent|%s)" % TEXT_FAULT,
    11: r"other: (other\.clio is absent|%s|schemas differ|row conditions|conversion in rule \d+ of (mapping|other)\.clio)"
        % MAPPING_FAULT,
}
EXCHANGES = [["exchange"], ["exchange", "--core"], ["exchange", "--nested"], ["exchange", "--core", "--nested"],
             ["exchange", "--nested", "--core"]]
QUESTIONS = [["answer"], ["judge"], ["compare"]]
WORDS = ["show", "exchange", "demo", "answer", "judge", "compare", "--core", "--nested", "--", "-c", "", "3", "007", "0", "100001", "+1", "--core=1",
         "help", "--help", "\u00fc", b"\xff", "SHOW", "show "]


def check_ending(run):
    """A run ends with a documented status, says its one message, and leaves files only where it may."""
    if run.status == 0:
        return same(run.told, "", "standard error with status 0")
    holds(run.status in MESSAGES, "a status that isn't documented: %d\n%s" % (run.status, run.told))
    holds(re.fullmatch(MESSAGES[run.status] + "\n", run.told, re.DOTALL), "not the one message of status %d: %r"
          % (run.status, run.told))
    if run.status != WRITE_FAULT:
        same((run.said, run.files), ("", {}), "what a refusing run said and left")


def is_accepted(words):
    """Whether a list of words is one of those that the program knows."""
    if words[:1] == ["demo"]:
        numbers = [word for word in words[1:] if word != "--core"]
        return (len(numbers) == 1 and len(words) < 4 and isinstance(numbers[0], str)
                and re.fullmatch("[1-9][0-9]{0,5}", numbers[0]) is not None and int(numbers[0]) <= 100000)
    return words in EXCHANGES + QUESTIONS or words in (["show"], ["show", "--core"])


class HostileCheck:
    """One damaged folder."""

    def __init__(self, case, folder, program, random, tally):
        self.case, self.folder, self.program, self.random, self.tally = case, folder, program, random, tally

    def count(self, what):
        self.tally[what] = self.tally.get(what, 0) + 1

    def run(self, words):
        run = self.folder.run(self.program, words)
        check_ending(run)
        self.count("status %d" % run.status)
        return run

    def check(self):
        """Damages one to three files, and holds what follows against this reading of the folder."""
        columns = {table.name + ".csv": table.columns for table in self.case.mapping.source}
        names = sorted(self.case.files) + ["mapping.clio"]
        for _ in range(self.random.choice([1, 1, 1, 2, 3])):
            name = self.random.choice(names)
            damage_file(self.random, self.folder.inside(name), columns.get(name, []))
        self.check_words()
        try:
            mapping, _ = folder_mapping(self.folder)
        except Refusal as refusal:
            return self.check_refused(refusal, [["show"], ["show", "--core"]] + EXCHANGES + QUESTIONS)
        except (Unsure, TooLong):
            return self.check_unsure()
        same(self.run(["show"]).status, 0, "status of show")
        try:
            instance = Rows(self.folder).source(mapping)
        except Refusal as refusal:
            return self.check_refused(refusal, EXCHANGES)
        except Unsure:
            return self.check_unsure()
        self.count("accepted")
        CaseCheck(Case(mapping, instance, {}), self.folder, self.program, self.random, {}).check()
        self.check_blocked()

    def check_words(self):
        """Now and then words that are mostly none of the program's."""
        if self.random.random() < .1:
            words = [self.random.choice(WORDS) for _ in range(self.random.randint(0, 3))]
            if not is_accepted(words):
                same(self.run(words).status, 2, "status of the words %s" % words)
            elif words[0] == "demo":
                same(self.run(words).status, 0, "status of the words %s" % words)

    def check_refused(self, refusal, commands):
        """The program refuses with the same status and the same message."""
        words = self.random.choice(commands)
        run = self.run(words)
        same((run.status, run.told), (refusal.status, refusal.message + "\n"), " ".join(words))
        self.count("same refusal")

    def check_unsure(self):
        """Only the form of the ending is known."""
        self.count("unsure")
        for words in (["show"], self.random.choice(EXCHANGES)):
            run = self.run(words)
            if run.status == 0 and words != ["show"]:
                same(sorted(line.rsplit(" ", 1)[0] for line in run.said.splitlines()), sorted(run.files), "the summary")

    def check_blocked(self):
        """Where `out` or a file in it can't be written, the files before it are there, whole."""
        words = self.random.choice(EXCHANGES)
        free = self.run(words)
        if free.status != 0:
            return
        names = [line.rsplit(" ", 1)[0] for line in free.said.splitlines()]
        blocked = self.random.randrange(-1, len(names))
        self.folder.block(None if blocked < 0 else names[blocked])
        run = self.folder.run(self.program, words, sweep=False)
        check_ending(run)
        self.count("status %d" % run.status)
        written = max(blocked, 0)
        message = "write fault: %d files written\n" % written
        same((run.status, run.said, run.told), (WRITE_FAULT, "", message), "blocked")
        same(run.files, {name: free.files[name] for name in names[:written]}, "the files before the blocked one")
