"""A side drafted from a database, from files or from a document, by clio-draft's code."""
import argparse
import pathlib
import shutil

from ..draft.command import opened, wanted_sets, write_data
from ..draft.data import Written
from ..draft.model import Side
from ..draft.text import side_text
from ..program import Refused
from .folder import DRAFTED
from .outline import Data

KINDS = ("sqlite", "postgres", "csv", "json")


def drafted(kind: str, place: str, schema: str, side: str, drawing: bool, data: bool, folder: pathlib.Path) -> Data:
    """The text of a side, and remarks; with data the files that it reads, in a folder of the current one."""
    if kind not in KINDS or side not in ("source", "target"):
        raise Refused("a side is drafted from sqlite, postgres, csv or json")
    if not place:
        raise Refused("name what is to be read")
    where = place if kind == "postgres" else str(folder / pathlib.Path(place).expanduser())
    base, sources = opened(argparse.Namespace(kind=kind, place=where, schema=schema or "public", delimiter=","))
    made = Side(side, base.tables(), drawing)
    remarks: list[str] = []
    shutil.rmtree(DRAFTED, ignore_errors=True)
    if data and side == "source":
        written = Written(DRAFTED, sources, remarks.append)
        wanted = wanted_sets(base, made, None)
        write_data(base, wanted, written)
        written.check_limits()
        for table, _, _ in wanted:
            written.check_refs(table, drawing)
    return {"text": side_text(made), "remarks": remarks}
