"""The chase: keys and dependencies make values equal until they hold, or two constants clash."""
from values import Null, image, value_order


class Chase:
    """The classes of values that the keys and dependencies of a schema force to be equal in some facts."""

    def __init__(self, facts, tables):
        self.facts, self.tables, self.replaced, self.clash = facts, tables, {}, False
        while not self.clash and self.step():
            pass

    def value(self, value):
        """The constant of the value's class, or else its least null."""
        while value in self.replaced:
            value = self.replaced[value]
        return value

    def instance(self):
        """The image of the facts."""
        return image(self.facts, self.value)

    def step(self):
        """Makes rows that agree on the left of a determination now agree on its right; answers whether something changed."""
        changed = False
        facts = self.instance()
        for number, table in enumerate(self.tables):
            rows = [fact.row for fact in facts if fact.table == number]
            for left, right in table.determinations():
                first = {}
                for row in rows:
                    agreed = tuple(row[column] for column in left)
                    changed |= self.make_equal(first.setdefault(agreed, row), row, right)
        return changed

    def make_equal(self, row, other, columns):
        """Puts the values of two rows in these columns into one class each; two constants are a clash."""
        changed = False
        for one, two in ((row[column], other[column]) for column in columns):
            least, greatest = sorted((self.value(one), self.value(two)), key=value_order)
            if least == greatest:
                continue
            if not isinstance(greatest, Null):
                self.clash = True
                return changed
            self.replaced[greatest] = least
            changed = True
        return changed
