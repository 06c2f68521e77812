"""Whether a rule follows from a mapping under the keys of its target: the program is asked.

The left side of the rule, with a text of its own for each variable, is taken as the source; then the rule follows if
the right side holds in every target, which `clio answer` says. The texts have spaces at both ends and a number, so
that no conversion makes two of them equal. A set of a document is a flat one here, since rules have all its columns."""
from ..mapping.meanings import CONVERSIONS
from ..mapping.printing import printed_rule, printed_set, quoted
from ..mapping.schema import Table
from ..mapping.tree import Ref, Rule
from .asking import ask
from .lines_alone import without


class Follower:
    """Asks of rules whether they follow from others."""

    def __init__(self, source: list[Table], target: list[Table], left_out: list[Ref], rules: list[Rule]) -> None:
        self.source = {table.name: table for table in source}
        names = "".join(f"set {table.name} {{ {', '.join(f'c{n}' for n in range(len(table.columns)))}; }}\n"
                        for table in source)
        roots = "".join(printed_set(without(table.text, left_out)) for table in target if table.parent is None)
        listed = "".join(printed_rule(rule) + "\n" for rule in rules)
        self.mapping = f"mapping 3;\nsource {{\n{names}}}\ntarget {{\n{roots}}}\n{listed}"

    def follows(self, rule: Rule) -> bool:
        """Whether the mapping's rules and keys give what the rule says. If they contradict each other, nothing
        follows."""
        texts: dict[str, str] = {}
        rows: dict[str, list[str]] = {name: [] for name in self.source}
        for atom in rule.premise:
            cells = [texts.setdefault(cell.value.text, f" v{len(texts)} ") for cell in atom.cells]
            rows[atom.name.text].append(",".join(cells))
        for one in rule.derived:
            arguments = [texts[cell.value.text] for cell in one.call.cells]
            texts[one.name.text] = CONVERSIONS[one.call.name.text].apply(*arguments)
        files = {name + ".csv": "".join(line + "\n" for line in [self._header(name), *dict.fromkeys(found)])
                 for name, found in rows.items()}
        files["mapping.clio"] = self.mapping
        files["query.clio"] = f'query 1;\nanswer("yes") from {", ".join(self._asked(rule, texts))};\n'
        said = ask(["answer"], files, "out/answers.csv")
        return said.status == 0 and "yes" in said.printed.split("\n")

    def _header(self, name: str) -> str:
        return ",".join(f"c{n}" for n in range(len(self.source[name].columns)))

    def _asked(self, rule: Rule, texts: dict[str, str]) -> list[str]:
        """The right side as a query."""
        atoms = []
        for atom in rule.conclusion:
            cells = [quoted(cell.value.text) if cell.value.kind == "string" else
                     quoted(texts[cell.value.text]) if cell.value.text in texts else cell.value.text
                     for cell in atom.cells]
            atoms.append(f"{atom.name.text}({', '.join(cells)})")
        return atoms
