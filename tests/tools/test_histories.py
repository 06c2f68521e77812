"""clio-ids over histories of ten loads, with rows changed, added and removed in each, against a plain model of which
thing is which.
"""
import os
import pathlib
import random
import subprocess
import tempfile
import unittest
from typing import NamedTuple, TypeVar

from trial import PROGRAM, TIMES

from clio_tools.csv import read_table, write_table
from clio_tools.ids.crosswalk import Crosswalk
from clio_tools.ids.numbering import number
from clio_tools.mapping.text import read_sets

MAPPING = """mapping 1;
source { set orders { n, mail, tax, street, town, label; } set item { n, s; } }
target {
  set sold { n, s; ref (n) -> sale (n); }
  set sale { n, c, p; key (n); ref (c) -> customer (cid); ref (p) -> place (pid); }
  set customer { cid, mail, tax, phone; key (cid); key (mail); key (tax); }
  set place { pid, street, town; key (pid); key (street, town); }
  set shelf { sid, place, label; key (sid); key (place, label); ref (place) -> place (pid); }
}
rule orders(n, m, t, s, w, l) -> sale(n, c, p), customer(c, m, t, f), place(p, s, w), shelf(i, p, l);
rule item(n, s) -> sold(n, s);
"""
LOADS, HISTORIES = 10, 8
Values = TypeVar("Values", bound=tuple[object, ...])  # those of the keys of a thing


class Order(NamedTuple):
    """An order of the source."""
    n: str
    mail: str
    tax: str
    street: str
    town: str
    label: str


class World:
    """A source that changes from load to load, such that its keys hold."""

    def __init__(self, choice: random.Random) -> None:
        self.choice = choice
        self.people = [(f"m{one}", f"t{one}") for one in range(4)]
        self.orders: dict[str, tuple[int, str, str, str]] = {}
        self.items: set[tuple[str, str]] = set()

    def free(self, kind: int, letter: str) -> str:
        """A mail or tax number that nobody has now; it may have been another's."""
        return self.choice.choice([one for one in (f"{letter}{number}" for number in range(8))
                                   if all(one != person[kind] for person in self.people)])

    def step(self) -> None:
        """Some changes."""
        for _ in range(self.choice.randrange(1, 6)):
            self.choice.choice([self.change_person, self.exchange_mails, self.put_order, self.put_order,
                                self.take_order, self.put_item, self.take_item])()

    def change_person(self) -> None:
        place, kind = self.choice.randrange(len(self.people)), self.choice.randrange(3)
        mail, tax = self.people[place]
        self.people[place] = (self.free(0, "m") if kind != 1 else mail, self.free(1, "t") if kind != 0 else tax)

    def exchange_mails(self) -> None:
        one, other = self.choice.sample(range(len(self.people)), 2)
        (mail, tax), (mail_of_other, tax_of_other) = self.people[one], self.people[other]
        self.people[one], self.people[other] = (mail_of_other, tax), (mail, tax_of_other)

    def put_order(self) -> None:
        """An order, a new one or another in the place of one."""
        pick = self.choice.randrange
        self.orders[f"{pick(12)}"] = (pick(len(self.people)), f"s{pick(3)}", f"w{pick(2)}", f"l{pick(2)}")

    def take_order(self) -> None:
        if self.orders:
            del self.orders[self.choice.choice(sorted(self.orders))]

    def put_item(self) -> None:
        self.items.add((f"{self.choice.randrange(12)}", f"i{self.choice.randrange(3)}"))

    def take_item(self) -> None:
        if self.items:
            self.items.remove(self.choice.choice(sorted(self.items)))

    def rows(self) -> list[Order]:
        return [Order(n, *self.people[person], *rest) for n, (person, *rest) in sorted(self.orders.items())]


class Things:
    """Which thing is which, as the manual says it: by its keys, the first one first; without a key by the sale in which
    it stands.
    """

    def __init__(self) -> None:
        self.count = 0
        self.by_key: dict[tuple[str, int, object], int] = {}
        self.by_sale: dict[tuple[str, str], int] = {}
        self.taken: set[int] = set()

    def new(self) -> int:
        self.count += 1
        return self.count

    def load(self, set_name: str, keys: dict[Values, list[str]], letter: str) -> dict[Values, int]:
        """The things of a set, each given by the values of its keys, with the sales in which it stands."""
        found: dict[Values, int] = {}
        for place in range(len(next(iter(keys), ()))):
            for values in keys:
                self.claim(found, values, self.by_key.get((set_name, place, values[place])))
        for values, sales in sorted(keys.items(), key=lambda one: one[1][:1]):
            for sale in sorted(sales):
                self.claim(found, values, self.by_sale.get((letter, sale)))
        for values, sales in keys.items():
            found.setdefault(values, self.new())
            here = [(letter, sale) for sale in sales]
            self.by_sale = {place: thing for place, thing in self.by_sale.items()
                            if thing != found[values] and place not in here}
        things = set(found.values())
        self.by_key = {key: thing for key, thing in self.by_key.items() if thing not in things}
        self.by_key.update({(set_name, place, value): found[values]
                            for values in keys for place, value in enumerate(values)})
        return found

    def claim(self, found: dict[Values, int], values: Values, thing: int | None) -> None:
        if thing is not None and values not in found and thing not in self.taken:
            found[values] = thing
            self.taken.add(thing)

    def of_sale(self, letter: str, sale: str) -> int:
        """The thing of a sale of which nothing is known."""
        return self.by_sale.setdefault((letter, sale), self.new())


class Histories(unittest.TestCase):
    def setUp(self) -> None:
        kept = tempfile.TemporaryDirectory()
        self.addCleanup(os.chdir, os.getcwd())
        self.addCleanup(kept.cleanup)
        os.chdir(kept.name)
        pathlib.Path("mapping.clio").write_text(MAPPING, encoding="utf-8")

    def test_random(self) -> None:
        for history in range(HISTORIES * TIMES):
            with self.subTest(history):
                pathlib.Path("ids.db").unlink(missing_ok=True)
                self.history(random.Random(f"history {history}"))

    def history(self, choice: random.Random) -> None:
        """Ten loads: a thing of the model has the same number in all of them, and no number has two things."""
        world, things = World(choice), Things()
        numbers: dict[object, str] = {}
        for _ in range(LOADS):
            world.step()
            for thing, got in self.pairs(things, world.rows(), world.items):
                self.assertEqual(numbers.setdefault(thing, got), got, thing)
            self.assertEqual(len(set(numbers.values())), len(numbers))

    def pairs(self, things: Things, orders: list[Order], items: set[tuple[str, str]]) -> list[tuple[object, str]]:
        """The things of a load with the numbers that they got."""
        customers = {(one.mail, one.tax): [other.n for other in orders if other.mail == one.mail] for one in orders}
        places = {((one.street, one.town),): [other.n for other in orders if other[3:5] == one[3:5]] for one in orders}
        things.taken = set()
        people, spots = things.load("customer", customers, "c"), things.load("place", places, "p")
        shelves = things.load("shelf", {((spots[(one[3:5],)], one.label),): [] for one in orders}, "")
        tables = self.run_once(orders, items)
        sale = {n: (c, p) for n, c, p in tables["sale"]}
        customer = {cid: (mail, tax, phone) for cid, mail, tax, phone in tables["customer"]}
        pairs: list[tuple[object, str]] = []
        for one in orders:
            c, p = sale[one.n]
            self.assertEqual(customer[c][:2], (one.mail, one.tax))
            sid = next(sid for sid, place, label in tables["shelf"] if (place, label) == (p, one.label))
            thing = people[one.mail, one.tax]
            pairs += [(thing, c), (("phone", thing), customer[c][2]), (spots[(one[3:5],)], p),
                      (shelves[((spots[(one[3:5],)], one.label),)], sid)]
        for n in sorted({n for n, _ in items} - {one.n for one in orders}):
            (c, p), thing = sale[n], things.of_sale("c", n)
            pairs += [(thing, c), (("phone", thing), customer[c][2]), (things.of_sale("p", n), p)]
        return pairs

    def run_once(self, orders: list[Order], items: set[tuple[str, str]]) -> dict[str, list[list[str]]]:
        """Runs clio and gives numbers; answers the tables of the target."""
        write_table("orders.csv", list(Order._fields), map(list, orders))
        write_table("item.csv", ["n", "s"], map(list, sorted(items)))
        subprocess.run([PROGRAM, "exchange"], stdout=subprocess.DEVNULL, check=True)
        tables, crosswalk = read_sets(MAPPING)["target"], Crosswalk("ids.db")
        number(tables, crosswalk, {}, False)
        crosswalk.close()
        return {table.name: list(read_table(pathlib.Path("out", f"{table.name}.csv"), table.columns))
                for table in tables}


if __name__ == "__main__":
    unittest.main()
