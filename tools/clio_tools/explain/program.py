"""The program, and the mapping whose rules it prints."""
import os
import pathlib
import subprocess

from clio_tools.mapping.meaning import Mapping, read_mapping
from clio_tools.program import Refused, program


def printed_rules(folder: pathlib.Path | None = None) -> list[bytes] | None:
    """The lines of rules that `clio show` prints for the mapping in a folder, or in this one."""
    command = [os.path.abspath(program()), "show"]
    ended = subprocess.run(command, stdin=subprocess.DEVNULL, capture_output=True, check=False, cwd=folder)
    if ended.returncode:
        return None
    return [line + b"\n" for line in ended.stdout.split(b"\n") if line.startswith(b"rule ")]


def mapping_of(content: bytes, folder: pathlib.Path | None = None) -> tuple[Mapping | None, list[str]]:
    """The mapping of a folder's text, with the rules that clio prints in place of its lines; and these rules as
    texts."""
    printed = printed_rules(folder)
    if printed is None:
        return None, []
    try:
        written = read_mapping(content)
        mapping = read_mapping(content[:written.end_of_sets] + b"\n" + b"".join(printed))
    except Refused:
        return None, []
    mapping.conditions = written.conditions
    return mapping, [line.decode().strip() for line in printed]
