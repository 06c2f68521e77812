"""Runs a tool of this package: python3 -m clio_tools draft sqlite FILE is clio-draft sqlite FILE."""
import importlib
import sys

NAMES = (
    "draft",
    "draw",
    "explain",
    "given",
    "ids",
    "load",
    "picture",
    "report",
    "rules",
    "sql",
    "tables",
    "why",
)
TOOLS = {name: f"clio-{name}" for name in NAMES}
TOOLS["script"] = "clio-script-to-postgres"


def main() -> None:
    """Runs the tool that the first word names, with the words after it."""
    words = sys.argv[1:]
    if not words or words[0] not in TOOLS:
        sys.exit(f"usage: python3 -m clio_tools TOOL [WORD ..], where TOOL is one of {', '.join(sorted(TOOLS))}")
    sys.argv = [TOOLS[words[0]], *words[1:]]
    importlib.import_module(f"clio_tools.{words[0]}.command").main()


main()
