"""The documents: figures are those of their program and each is shown; links lead somewhere; the list of crates."""
import pathlib
import re
import subprocess
import sys
import unittest

from trial import TOP

LINK = re.compile(r"\]\(([^)\s]+)\)")
LISTED = re.compile(r"^- ((?:`\w+`(?:\\\*)?(?:, )?)+):", re.M)
PAGES = [TOP / "README.md", TOP / "crates/README.md", *sorted((TOP / "docs").glob("**/*.md"))]


def without_code(page: pathlib.Path) -> str:
    """A page without its blocks of code."""
    return re.sub(r"^```.*?^```$", "", page.read_text(encoding="utf-8"), flags=re.M | re.S)


def anchors(page: pathlib.Path) -> set[str]:
    """The names by which links reach the headings of a page, and those that it sets itself."""
    text = without_code(page)
    headings = re.findall(r"^#+ (.*)$", text, re.M)
    return {re.sub(r"[^\w\- ]", "", heading.lower()).replace(" ", "-") for heading in headings} | set(
        re.findall(r'<a id="([^"]*)">', text))


def is_there(page: pathlib.Path, link: str) -> bool:
    """Whether a link of a page leads to something."""
    name, _, place = link.partition("#")
    file = page.parent / name if name else page
    return file.exists() and (not place or place in anchors(file))


def uses() -> dict[str, set[str]]:
    """Which crates each crate of crates.txt uses."""
    lines = [line.split(":") for line in (TOP / "crates.txt").read_text(encoding="utf-8").split("\n")
             if line and not line.startswith("#")]
    return {name: set(used.split()) for name, used in lines}


class Figures(unittest.TestCase):
    def test_the_figures_are_those_of_their_program_and_each_is_shown(self) -> None:
        subprocess.run([sys.executable, "-B", TOP / "dev" / "figures", "--check"], check=True)
        shown = {name for page in PAGES for name in re.findall(r"figures/([a-z-]+[.]svg)", page.read_text("utf-8"))}
        self.assertEqual(shown, {path.name for path in (TOP / "docs/figures").glob("*.svg")})


class Links(unittest.TestCase):
    def test_each_link_leads_to_a_file_and_to_a_heading_of_it(self) -> None:
        pages = [*PAGES, TOP / "CHANGELOG.md", *TOP.glob("*/README.md"), *TOP.glob("*/*/README.md")]
        lost = [f"{page.relative_to(TOP)}: {link}" for page in pages for link in LINK.findall(without_code(page))
                if not link.startswith("http") and not is_there(page, link)]
        self.assertEqual(lost, [])


class Lines(unittest.TestCase):
    def test_code_and_links_are_on_one_line_as_the_man_page_is_made_line_by_line(self) -> None:
        pages = [TOP / "docs/MANUAL.md", *sorted((TOP / "docs/manual").glob("*.md"))]
        broken = [f"{page.name}: {line}" for page in pages
                  for line in without_code(page).split("\n") if line.count("`") % 2 or re.search(r"\[[^\]]*$", line)]
        self.assertEqual(broken, [])


class Tables(unittest.TestCase):
    def test_no_table_is_torn_apart(self) -> None:
        torn = [f"{page.name}: {row}" for page in PAGES
                for row in re.findall(r"(?:^|\n)\n(\|[^\n]*)\n(?!\|[-|]+\n)", without_code(page))]
        self.assertEqual(torn, [])


class Crates(unittest.TestCase):
    def test_each_crate_has_its_line_and_a_star_exactly_if_the_program_does_not_use_it(self) -> None:
        text = (TOP / "crates/README.md").read_text(encoding="utf-8")
        names = [name for line in LISTED.findall(text) for name in re.findall(r"`(\w+)`((?:\\\*)?)", line)]
        used = uses()
        needed: set[str] = set()
        waiting = ["clio"]
        while waiting:
            name = waiting.pop()
            if name in used and name not in needed:
                needed.add(name)
                waiting += used[name]
        self.assertEqual(sorted(name for name, _ in names), sorted(used))
        self.assertEqual({name for name, star in names if star}, set(used) - needed)

    def test_a_crate_uses_only_crates_before_it(self) -> None:
        before: set[str] = set()
        used = uses()
        for name, others in used.items():
            self.assertEqual(others & used.keys() - before, set(), name)
            before.add(name)


if __name__ == "__main__":
    unittest.main()
