"""The schema that the checks use, ids counted from a first one, and what a datum is when it is compared."""
import uuid

ZEROS = "00000000-0000-0000-0000-000000000000"
FIRST_ID = "aaaaaaaa-aaaa-4aaa-8aaa-aaaaaaaaaaaa"
FIRST_ROW = "00000000-0000-0000-0000-000000000001"

NET = {
    "name": "net",
    "version": "1.0.0",
    "tables": {
        "Port": {
            "columns": {
                "name": {"type": "string"},
                "tags": {"type": {"key": "integer", "min": 0, "max": "unlimited"}},
                "opts": {"type": {"key": "string", "value": "string", "min": 0, "max": "unlimited"}},
                "up": {"type": {"key": "boolean", "min": 0}},
            }
        }
    },
}


def nth(first, number):
    """The id that is dealt as the `number`th, counted from 1, where ids are dealt upwards from `first`."""
    return str(uuid.UUID(int=uuid.UUID(first).int + number - 1))


def insert(**row):
    return {"op": "insert", "table": "Port", "row": row}


def select(where=(), **more):
    return {"op": "select", "table": "Port", "where": list(where), **more}


def _atom(value):
    return tuple(value) if isinstance(value, list) else value


def _order(value):
    return repr(type(value)), value


def datum(value):
    """A datum as a value that is equal for all spellings: a sorted tuple of atoms, or a dictionary for a map."""
    if isinstance(value, list) and value and value[0] == "map":
        return {_atom(key): _atom(item) for key, item in value[1]}
    if isinstance(value, list) and value and value[0] == "set":
        return tuple(sorted((_atom(item) for item in value[1]), key=_order))
    return (_atom(value),)


class Column:
    """What a mirror has to know of a column: whether it is a map, whether it holds one entry at most, and its default."""

    def __init__(self, spelled):
        kind = spelled if isinstance(spelled, dict) else {"key": spelled}
        key = kind["key"]["type"] if isinstance(kind["key"], dict) else kind["key"]
        self.is_map = "value" in kind
        self.is_single = kind.get("max", 1) == 1
        self.default = {} if self.is_map else ()
        if not self.is_map and kind.get("min", 1) == 1:
            self.default = ({"integer": 0, "boolean": False, "string": "", "uuid": ("uuid", ZEROS)}[key],)

    def changed(self, old, difference):
        """The datum `old` with a difference carried out."""
        if self.is_single:
            return difference
        if not self.is_map:
            return tuple(sorted(set(old) ^ set(difference), key=_order))
        new = dict(old)
        for key, item in difference.items():
            if key in new and new[key] == item:
                del new[key]
            else:
                new[key] = item
        return new


def columns_of(schema, table):
    """The columns of a table by name, the implicit ones among them."""
    columns = {name: Column(column["type"]) for name, column in schema["tables"][table]["columns"].items()}
    return {**columns, "_uuid": Column("uuid"), "_version": Column("uuid")}
