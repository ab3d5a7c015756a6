#!/usr/bin/env python3
"""Times selects and updates over databases of 10 and of 100,000 rows.

    python3 bench/query.py [--program PATH] [--rows N] [--times N]

The program is the table of cases, which carries out changes and then asks. Each question is asked once in one run and many
times in another; the difference of the two, divided by how often more it was asked, is what one costs, without reading the
rows in. Of three runs the shortest counts. Printed are processor microseconds for each, and the ratio of the large database to the
small one:

    select by id          where ["_uuid","==",ID]
    select of a table     where ["name","==",TEXT] on a table of 10 rows, beside another of 10 or of 100,000
    select of all rows    the same on the table that grows: a walk over its rows
    step of one row       a change of one row is carried out, and a monitor of the table tells of it
"""
from timing import arguments, compare, uuid

COLUMNS = {"columns": {"name": {"type": "string"}, "tags": {"type": {"key": "integer", "min": 0, "max": "unlimited"}}}}
SCHEMA = {"name": "net", "version": "1.0.0", "tables": {"Large": COLUMNS, "Small": COLUMNS}}


def filling(rows):
    def table(count):
        return {uuid(n): {"insert": {"name": f"p{n}", "tags": ["set", [n, n + 1]]}} for n in range(count)}

    return {"Large": table(rows), "Small": table(10)}


def select(table, condition):
    return {"op": "select", "table": table, "where": [condition], "columns": ["name"]}


def by_id(rows, times):
    return ["transact", [filling(rows)], [select("Large", ["_uuid", "==", ["uuid", uuid(n % 10)]]) for n in range(times)]]


def by_name(table):
    def line(rows, times):
        return ["transact", [filling(rows)], [select(table, ["name", "==", f"p{n % 10}"]) for n in range(times)]]

    return line


def step(rows, times):
    steps = [{"Large": {uuid(n % 10): {"modify": {"name": f"q{n}"}}}} for n in range(times)]
    return ["updates", "update2", {"Large": {}, "Small": {}}, [filling(rows)], steps]


def main():
    parser = arguments(__doc__)
    parser.add_argument("--rows", type=int, default=100_000)
    parser.add_argument("--times", type=int, default=50_000)
    given = parser.parse_args()
    few = max(given.times // 1000, 1)
    questions = [
        ("select by id", by_id, given.times, given.times),
        ("select of a table", by_name("Small"), given.times, given.times),
        ("select of all rows", by_name("Large"), given.times, few),
        ("step of one row", step, given.times, given.times),
    ]
    compare(given.program, SCHEMA, (10, given.rows), questions)


main()
