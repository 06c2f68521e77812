"""What the program makes of a question, held against this reading of the folder."""
import os
import re
import shutil

from checks import check_clash_message, holds, same
from damage import damage_file
from folders import folder_mapping
from hostile import check_ending
from pair_cases import ALIKE
from program import Run
from questions import wanted_run
from refusals import WRITE_FAULT, Unsure


class QuestionCheck:
    """One folder with a question; of a part of them some files are damaged first."""

    def __init__(self, question, folder, program, random, tally):
        self.question, self.folder, self.program, self.random, self.tally = question, folder, program, random, tally

    def count(self, what, number=1):
        self.tally[what] = self.tally.get(what, 0) + number

    def run(self, sweep=True):
        return self.folder.run(self.program, [self.question.word], sweep)

    def check(self):
        is_damaged = self.random.random() < .2
        if is_damaged:
            self.damage()
        try:
            wanted = wanted_run(self.folder, self.question.word)
        except Unsure:
            self.count("unsure")
            return check_ending(self.run())
        if not is_damaged:
            self.check_reading(wanted)
        run = self.run()
        if wanted.told is None:
            self.count("clash")
            same((run.status, run.said, run.files), (wanted.status, "", {}), "status of a clash")
            return check_clash_message(run.told, folder_mapping(self.folder)[0].target)
        for name in ("status", "told", "said"):
            same(getattr(run, name), getattr(wanted, name), name)
        same(sorted(run.files), sorted(wanted.files), "names of files")
        for name, text in wanted.files.items():
            same(run.files[name], text, name)
        self.tell(wanted)
        if wanted.files and self.random.random() < .1:
            self.check_blocked(wanted)

    def damage(self):
        """Damages one or two files, mostly those that only this word reads."""
        if self.question.word == "judge" and self.random.random() < .05:
            self.damage_given()
        names = sorted(self.question.files)
        own = [name for name in names if name not in (self.question.case.files if self.question.case else {"mapping.clio"})]
        for _ in range(self.random.choice([1, 1, 2])):
            name = self.random.choice(own if own and self.random.random() < .7 else names)
            damage_file(self.random, self.folder.inside(name), self.columns_of(name))

    def damage_given(self):
        """Takes the folder of the given files away, or puts a file in its place."""
        shutil.rmtree(self.folder.inside("given"))
        if self.random.random() < .5:
            self.folder.write("given", "")

    def columns_of(self, name):
        """The columns of the set of a CSV file."""
        tables = self.question.case.mapping if self.question.case else None
        side = [] if tables is None else tables.target if name.startswith("given/") else tables.source
        return next((table.columns for table in side if table.name + ".csv" == os.path.basename(name)), [])

    def check_reading(self, wanted):
        """What this reading must find by itself."""
        manner = self.question.manner
        if wanted.status == 0 and self.question.word == "judge" and not manner:
            holds(re.match("verdict (core|universal)\n", wanted.said), "this reading alone: its own target has the " + wanted.said)
        if wanted.status == 0 and self.question.word == "compare" and manner and set(manner) <= set(ALIKE):
            same(wanted.said, "forward yes\nbackward yes\n", "this reading alone: mappings that are the same")

    def tell(self, wanted):
        """Counts what came out."""
        if wanted.status != 0:
            self.count("status %d" % wanted.status)
        elif self.question.word == "judge":
            self.count(re.sub(r" \d+.*", "", wanted.said.strip()))
        elif self.question.word == "compare":
            self.count(re.sub(r" \d+", "", ", ".join(wanted.said.split("\n")[:2])))
        else:
            rows = wanted.files["answers.csv"].count("\n") - 1
            self.count("answered by no row" if rows == 0 else "answered by rows")

    def check_blocked(self, wanted):
        """Where `out` or a file in it can't be written, the files before it are there, whole, and nothing is said."""
        names = list(wanted.files)
        blocked = self.random.randrange(-1, len(names))
        self.folder.block(None if blocked < 0 else names[blocked])
        written = max(blocked, 0)
        fault = Run(WRITE_FAULT, "", "write fault: %d files written\n" % written,
                    {name: wanted.files[name] for name in names[:written]})
        same(self.run(sweep=False), fault, "blocked")
        self.count("status 8")
