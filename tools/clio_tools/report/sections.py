"""The sections of a report, from its figures."""
from collections.abc import Iterator

from clio_tools.explain.said import amount
from clio_tools.report.figures import ColumnFigures, Fate, Figures, SourceFigures, TargetFigures
from clio_tools.report.page import Cell, code, escaped, paragraph, summed, table

SHOWN = 20  # rows that no rule used, and sets of rules, that are shown


def head(figures: Figures, name: str) -> Iterator[str]:
    """What the page is of, and in short whether all arrived."""
    rows = sum(len(one.rows.rows) for one in figures.source)
    lost = sum(len(one.not_used) for one in figures.source)
    columns = sum(len(one.unused_columns) for one in figures.source)
    written = sum(one.written for one in figures.target)
    mode = "plain mode, or core mode that left nothing out" if figures.is_plain else "core mode"
    yield f"<h1>The exchange of {escaped(name)}</h1>"
    yield paragraph(f"<code>out</code> has what {mode} gives: {amount(written, 'row')}"
                    f" in {amount(len(figures.target), 'table')}, by {amount(len(figures.printed), 'rule')}"
                    f" from {amount(rows, 'row')} of {amount(len(figures.source), 'table')}.")
    yield paragraph("Every row of the source was used by some rule." if not lost else
                    f"{amount(lost, 'row')} of the source {'was' if lost == 1 else 'were'} used by no rule.",
                    "good" if not lost else "bad")
    yield paragraph("Every column of the source goes somewhere or joins something." if not columns else
                    f"{amount(columns, 'column')} of the source {'goes' if columns == 1 else 'go'} nowhere.",
                    "good" if not columns else "bad")
    yield paragraph("These are the two ways in which data doesn't arrive: a row that no rule uses, and a column that no"
                    " rule uses. All figures were counted anew from the mapping, the source files and"
                    " <code>out</code>, and the rows that the rules make, after <code>fold.csv</code>, were compared"
                    " with those in <code>out</code>: they are the same.")
    yield ("<nav><a href='#source'>Source</a><a href='#rules'>Rules</a><a href='#target'>Target</a>"
           "<a href='#nulls'>Nulls</a></nav>")


def source(figures: Figures, written: dict[int, str]) -> Iterator[str]:
    """For each table of the source what was used and what wasn't."""
    yield "<h2 id=source>Source</h2>"
    has_conditions = any(one.conditions for one in figures.source)
    lines: list[tuple[Cell, list[int]]] = [
        (one.table.name, [one.rows.records + one.failing, *[one.failing] * has_conditions, one.rows.repeats,
                          len(one.rows.rows), sum(one.used), len(one.not_used)]) for one in figures.source]
    yield summed(["set", "#records", *["#fail a condition"] * has_conditions, "#repeat another", "#different rows",
                  "#used by a rule", "#used by none"], lines)
    without = "those that fail a condition + " if has_conditions else ""
    yield paragraph(f"Records = {without}those that repeat another + different rows; different rows = used + not used.",
                    "soft")
    for one in figures.source:
        for column, test in one.conditions:
            name = one.table.columns[column.column]
            yield paragraph(f"Of {code(one.table.name)} only rows whose {code(name)} is {code(test)}.")
    for number, one in enumerate(figures.source):
        if one.unused_columns or one.not_used:
            yield f"<h3>{escaped(one.table.name)}</h3>"
        if one.unused_columns:
            yield paragraph("No rule uses " + ", ".join(map(code, one.unused_columns)) + ".")
        if one.not_used:
            yield from not_used(figures, number, one, written.get(number))


def not_used(figures: Figures, number: int, one: SourceFigures, file: str | None) -> Iterator[str]:
    """The rows that no rule used, by reason, and the first of them."""
    yield summed(["why no rule used a row", "#rows"],
                 [(reason, [count]) for reason, count in one.reasons.most_common()])
    names = [name for name in one.table.columns if not name.startswith("#")]
    places = [one.table.columns.index(name) for name in names]
    rows = [[where(figures, number, row), *(one.rows.rows[row][place] for place in places)]
            for row in one.not_used[:SHOWN]]
    more = f"; the first {SHOWN}" if len(rows) < len(one.not_used) else ""
    yield paragraph(f"{amount(len(one.not_used), 'row')}{more}{f', all in {code(file)}' if file else ''}:")
    yield table(["where", *names], rows)


def where(figures: Figures, number: int, row: int) -> str:
    """Where a row of the source is."""
    place = figures.source_rows.rows[number].place(row)
    return place if isinstance(place, str) else f"line {place[1]}"


def rules(figures: Figures) -> Iterator[str]:
    """For each rule its matches, and the rows that are by it."""
    yield "<h2 id=rules>Rules</h2>"
    lines: list[list[Cell]] = []
    for number, (text, matches) in enumerate(zip(figures.printed, figures.matches)):
        mine = [(mask, count) for one in figures.target for mask, count in one.by_rules.items() if mask >> number & 1]
        lines.append([number, (code(text),), matches.number, len(matches.found),
                      sum(one.asked_by_rule[number] for one in figures.target), sum(count for _, count in mine),
                      sum(count for mask, count in mine if mask == 1 << number)])
    yield table(["#rule", "its text", "#matches", "#different", "#rows asked for", "#rows in out", "#by it alone"],
                lines)
    yield paragraph("Matches that put the same texts into the target are one. Each different match asks for a row of"
                    " each set on the right side. Rows that several rules ask for count for each of them, but for the"
                    " last column.", "soft")


def target(figures: Figures) -> Iterator[str]:
    """For each table of the target how its rows came about."""
    yield "<h2 id=target>Target</h2>"
    merged = f"#merged by {keys(figures, 'keys', 'and dependencies')}"
    yield summed(["set", "#asked for", "#asked for again", merged, "#left out by core mode", "#rows in out"],
                 [(one.table.name, [one.asked, one.asked - one.different, one.different - one.after_keys,
                                    one.after_keys - one.written, one.written]) for one in figures.target])
    yield paragraph("Asked for = asked for again + merged + left out + rows in <code>out</code>.", "soft")
    for one in figures.target:
        if one.written:
            yield from of_table(one)
    if any(one.written for one in figures.target):
        yield paragraph("In each column texts + empty texts + nulls = rows. A null is named by the rule that left it"
                        " open; those of a key or a ref are surrogate keys.", "soft")


def of_table(one: TargetFigures) -> Iterator[str]:
    """By which rules the rows of a table of the target are, and what its columns have."""
    yield f"<h3>{escaped(one.table.name)}</h3>"
    ordered = sorted(one.by_rules.items(), key=lambda pair: (-pair[1], pair[0]))
    rows: list[tuple[Cell, list[int]]] = [(by(mask), [count]) for mask, count in ordered[:SHOWN]]
    if len(ordered) > SHOWN:
        rows.append(("other rules together", [sum(count for _, count in ordered[SHOWN:])]))
    yield summed(["rows by", "#rows"], rows)
    lines: list[list[Cell]] = [
        [name, column["texts"], column["empty"], column["nulls"], column["different"], (why(column),)]
        for name, column in zip(one.table.columns, one.columns)]
    yield table(["column", "#texts", "#empty texts", "#nulls", "#different nulls", "which rules left them open"], lines)


def keys(figures: Figures, word: str, more: str) -> str:
    """The word for keys, with more if the target has dependencies."""
    return f"{word} {more}" if any(one.tree.dependencies for one in figures.mapping.target) else word


def by(mask: int, alone: str = " alone") -> str:
    """The rules of some bits."""
    numbers = [str(number) for number in range(mask.bit_length()) if mask >> number & 1]
    if len(numbers) == 1:
        return f"rule {numbers[0]}{alone}"
    return "rules " + ", ".join(numbers[:-1]) + " and " + numbers[-1]


def why(column: ColumnFigures) -> str:
    """Which rules and variables the nulls of a column are of."""
    return ", ".join(f"rule {rule}, y{variable}: {count:,}"
                     for (rule, variable), count in sorted(column["why"].items()))


def nulls(figures: Figures) -> Iterator[str]:
    """What became of the values that rules left open."""
    yield "<h2 id=nulls>Nulls, and what replaced them</h2>"
    kinds: list[Fate] = ["stay", ("key", "text"), ("key", "null"), ("core", "text"), ("core", "null")]
    by_key = keys(figures, "by a key", "or dependency")
    yield summed(["left open by", "#nulls", "#stay", f"#a text, {by_key}", f"#another null, {by_key}",
                  "#a text, by core mode", "#another null, by core mode"],
                 [(f"rule {rule}, y{variable}", [sum(fate.values()), *(fate[kind] for kind in kinds)])
                  for (rule, variable), fate in figures.variables.items()])
    yield paragraph(f"<code>fold.csv</code> has {amount(len(figures.fold), 'replaced null')}: nulls = those that stay"
                    " + those in <code>fold.csv</code>.", "soft")
    if figures.by_key:
        yield from by_keys(figures)
    if not figures.is_plain:
        yield from core(figures)


def by_keys(figures: Figures) -> Iterator[str]:
    """How many nulls each key or dependency replaced."""
    rows: list[list[Cell]] = []
    for (number, key), count in sorted(figures.by_key.items()):
        one = figures.mapping.target[number]
        left, right = [", ".join(one.columns[column] for column in side)
                       for side in figures.determinations[number][key]]
        rows.append([one.name, left if key < len(one.keys) else f"dependency ({left}) -> ({right})", count])
    yield table(["set", keys(figures, "key", "or dependency"), "#nulls that it replaced"], rows,
                ["all", "", sum(figures.by_key.values())])
    yield paragraph("Counted in plain mode. If several keys would do, the null counts for one of them.", "soft")


def core(figures: Figures) -> Iterator[str]:
    """What core mode left out, and what says it as well."""
    rows: list[list[Cell]] = []
    for number, count in figures.covered.items():
        for mask, places in sorted(count.items()):
            rows.append([(code(figures.printed[number]),), places, by(mask, "") if mask
                         else "several matches together"])
    if rows:
        yield "<h3>What core mode left out</h3>"
        yield table(["matches of", "#matches", "what they ask for is there by"], rows)
        yield paragraph("These are matches of whose nulls core mode alone replaced some. They are not lost: each row"
                        " that they ask for became one that another match asks for as well.", "soft")


def picture(text: str) -> str:
    """The picture of the mapping."""
    return f"<details><summary>The mapping as a picture</summary><div class=wide>{text}</div></details>"


