"""The figures of the page on drawings: each note on a few rows."""
from __future__ import annotations

from drawn.grids import Figure, Grid, Layout

FLIGHT = Grid("flight", 0, "no dep arr", ["F1 FRA JFK", "F2 FRA XXX"])
PORT = Grid("port", 1, "code city", ["FRA Frankfurt", "JFK New·York", "ORY Paris"])
FIGURES = {
    "rows": Figure("rows leg from flight; line flight.no -> leg.no;",
                   [FLIGHT, PORT._replace(place=0), Grid("leg", 2, "no a", ["F1 ?", "F2 ?"])], [],
                   [(("flight", row, "no"), ("leg", row, "no")) for row in (0, 1)],
                   [("port", row) for row in range(3)]),
    "by": Figure("line port.city -> leg.a by dep; line port.city -> leg.b by arr;",
                 [FLIGHT, PORT, Grid("leg", 2, "no a b", ["F1 Frankfurt New·York", "F2 Frankfurt ?"])],
                 [(("flight", 0, "dep"), ("port", 0, "code")), (("flight", 0, "arr"), ("port", 1, "code"))],
                 [(("port", 0, "city"), ("leg", 0, "a")), (("port", 1, "city"), ("leg", 0, "b"))]),
    "set": Figure("line emp -> person.boss by mgr;", [Grid("emp", 0, "id name mgr", ["1 ann –", "2 bob 1"]),
                                                      Grid("person", 2, "pid no name boss",
                                                           ["?1 1 ann ?", "?2 2 bob ?1"])],
                  [(("emp", 1, "mgr"), ("emp", 0, "mgr"))], [(("emp", 0, "mgr"), ("person", 1, "boss"))]),
    "with": Figure("rows leg from flight with arr;", [FLIGHT, PORT, Grid("leg", 2, "no b", ["F1 New·York"])],
                   [(("flight", 0, "arr"), ("port", 1, "code"))], [(("port", 1, "city"), ("leg", 0, "b"))],
                   [("flight", 1)]),
    "where": Figure('rows firm from cust where tax filled; rows private from cust where tax = "";',
                    [Grid("cust", 0, "name tax", ["ann –", "ACME 77"]), Grid("firm", 2, "name", ["ACME"]),
                     Grid("private", 2, "name", ["ann"])], [],
                    [(("cust", 0, "name"), ("private", 0, "name")), (("cust", 1, "name"), ("firm", 0, "name"))]),
    "from": Figure('line "cat" -> pet.kind from cat; line "dog" -> pet.kind from dog;',
                   [Grid("cat", 0, "name", ["tom"]), Grid("dog", 0, "name", ["rex"]),
                    Grid("pet", 2, "kind name", ["cat tom", "dog rex"])], [],
                   [(("cat", 0, "name"), ("pet", 0, "kind")), (("dog", 0, "name"), ("pet", 1, "kind"))]),
    "lookup": Figure("lookup port;", [FLIGHT, PORT, Grid("lookup_port", 2, "code city", ["FRA Frankfurt"]),
                                      Grid("leg", 3, "no a", ["F1 Frankfurt", "F2 Frankfurt"])],
                     [(("flight", 0, "dep"), ("port", 0, "code"))],
                     [(("port", 0, "city"), ("lookup_port", 0, "city")), (("lookup_port", 0, "city"), ("leg", 0, "a")),
                      (("lookup_port", 0, "city"), ("leg", 1, "a"))]),
}


def figures() -> dict[str, str]:
    """Each figure by its name."""
    return {f"drawing-{name}": Layout(figure).drawn() for name, figure in FIGURES.items()}
