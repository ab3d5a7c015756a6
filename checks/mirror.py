"""What a client knows of a table by its monitor alone, and what a select shows."""
from data import columns_of, datum, select

NOTATIONS = {"monitor": "update", "monitor_cond": "update2", "monitor_cond_since": "update3"}


class Mirror:
    """A copy of the rows that a monitor shows, kept by its notifications."""

    def __init__(self, session, schema, table, method, name, request, since=None):
        self.session, self.table, self.method, self.name = session, table, method, name
        self.columns = columns_of(schema, table)
        self.shown = request.get("columns", [column for column in self.columns if column != "_uuid"])
        self.rows = {}
        self.head = since
        self.commits = []
        params = [schema["name"], name, {table: request}] + ([since] if since is not None else [])
        result = session.ask(method, *params)
        if method == "monitor_cond_since":
            self.found, self.head, result = result
            if not self.found:
                self.rows = {}
        self.update(result)

    def update(self, updates):
        for row, change in updates.get(self.table, {}).items():
            if self.method == "monitor":
                self._replace(row, change.get("new"))
            else:
                self._alter(row, change)

    def _replace(self, row, new):
        if new is None:
            del self.rows[row]
        else:
            self.rows[row] = {column: datum(value) for column, value in new.items()}

    def _alter(self, row, change):
        ((kind, columns),) = change.items()
        if kind == "delete":
            del self.rows[row]
            return
        told = {column: datum(value) for column, value in (columns or {}).items()}
        if kind == "modify":
            old = self.rows[row]
            told = {column: self.columns[column].changed(old[column], value) for column, value in told.items()}
            self.rows[row] = {**old, **told}
            return
        if kind == "insert" and row in self.rows:
            raise AssertionError(f"row {row} is told as inserted twice")
        defaults = {column: self.columns[column].default for column in self.shown}
        self.rows[row] = {**defaults, **told}

    def take(self, seconds=None):
        """Takes the next notification of the session, which has to be this monitor's."""
        method, params = self.session.notice(seconds)
        if method != NOTATIONS[self.method] or params[0] != self.name:
            raise AssertionError(f"{method} {params[0]} came for the monitor {self.name}")
        if method == "update3":
            self.head = params[1]
            self.commits.append(params[1])
        self.update(params[-1])

    def follow(self, is_done, seconds):
        """Takes notifications until `is_done(self)`."""
        while not is_done(self):
            self.take(seconds)


def selected(session, database, table, where=(), columns=None):
    """The rows of a select by their ids, each datum in the form that compares."""
    operation = {**select(where), "table": table}
    if columns is not None:
        operation["columns"] = ["_uuid", *columns]
    rows = session.transact(database, operation)[0]["rows"]
    return {row.pop("_uuid")[1]: {column: datum(value) for column, value in row.items()} for row in rows}
