"""A client by the Python library that Debian brings: python3 idl_client.py REMOTE SCHEMA [NAME ..].

Prints `rows` with the names of all rows whenever they change. Once it has seen some it inserts a row of each of these names, one after the
other, and prints for each the status of the commit, and whether the row was there with it. Runs for a minute.
"""
import sys
import time

import ovs.db.idl
import ovs.poller

SECONDS = 60


def names(idl):
    return sorted(row.name for row in idl.tables["Port"].rows.values())


def insert(idl, name):
    transaction = ovs.db.idl.Transaction(idl)
    transaction.insert(idl.tables["Port"]).name = name
    print("commit", transaction.commit_block(), name, "is" if name in names(idl) else "isn't", "there", flush=True)


def main():
    remote, schema, *written = sys.argv[1:]
    helper = ovs.db.idl.SchemaHelper(schema)
    helper.register_all()
    idl = ovs.db.idl.Idl(remote, helper, leader_only=False)
    shown, until = None, time.monotonic() + SECONDS
    while time.monotonic() < until:
        idl.run()
        if idl.change_seqno and names(idl) != shown:
            shown = names(idl)
            print("rows", *shown, flush=True)
        while written and shown:
            insert(idl, written.pop(0))
        poller = ovs.poller.Poller()
        idl.wait(poller)
        poller.timer_wait(200)
        poller.block()


if __name__ == "__main__":
    main()
