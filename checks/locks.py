"""Named locks, through a relay and at its source (RFC 7047 sections 4.1.8 to 4.1.10)."""
from client import refusal
from data import insert
from harness import check, equal, holds

QUIET = 0.3


def lock(session, name="L"):
    """Asks a relay for a lock: that is answered at once, and told once it is owned."""
    equal(session.ask("lock", name), {"locked": False}, "the reply to lock")


def is_owner(session, name="L"):
    equal(session.notice(), ("locked", [name]), "what the owner is told")


@check(240)
def a_lock_goes_round(lab):
    """At a relay: the first who asks owns the lock, the second once the first unlocks, the third once the second leaves."""
    _, relay = lab.tier()
    first, second, third = (relay.session() for _ in range(3))
    lock(first)
    is_owner(first)
    lock(second)
    lock(third)
    holds(second.is_quiet(QUIET), "the second is told something while the first owns the lock")
    equal(first.ask("unlock", "L"), {}, "the reply to unlock")
    is_owner(second)
    holds(third.is_quiet(QUIET), "the third is told something while the second owns the lock")
    second.close()
    is_owner(third)
    third.reset()
    lock(first)
    is_owner(first)


@check(240)
def locks_at_the_source(lab):
    """The source answers whether the lock is owned; and clients of the source and of a relay share its locks."""
    source, relay = lab.tier()
    near, far = source.session(), relay.session()
    equal(near.ask("lock", "L"), {"locked": True}, "the source's reply")
    with source.session() as other:
        equal(other.ask("lock", "L"), {"locked": False}, "the source's reply to a second")
        equal(other.ask("lock", "M"), {"locked": True}, "another lock")
    lock(far)
    holds(far.is_quiet(QUIET), "the relay's client is told something while the source's client owns the lock")
    near.ask("unlock", "L")
    is_owner(far)
    equal(near.ask("steal", "L"), {"locked": True}, "the reply to steal")
    equal(far.notice(), ("stolen", ["L"]), "what the relay's client is told of the theft")


@check(240)
def steals_at_a_relay(lab):
    """A steal takes the lock at once, within a relay and between two; who lost it is told, and isn't given it again."""
    source, relay = lab.tier()
    other = lab.relay([source], name="other").with_source()
    first, second, third = relay.session(), relay.session(), other.session()
    lock(first)
    is_owner(first)
    equal(second.ask("steal", "L"), {"locked": True}, "the reply to steal at the same relay")
    equal(first.notice(), ("stolen", ["L"]), "what the first is told")
    equal(third.ask("steal", "L"), {"locked": True}, "the reply to steal at another relay")
    equal(second.notice(), ("stolen", ["L"]), "what the second is told")
    equal(refusal(first, "lock", "L"), "already asked", "a lock that was stolen, asked for again")
    equal(third.ask("unlock", "L"), {}, "the thief unlocks")
    holds(first.is_quiet(QUIET) and second.is_quiet(QUIET), "who lost the lock is told more")
    equal(first.ask("unlock", "L"), {}, "who lost it unlocks")
    lock(first)
    is_owner(first)


@check(240)
def refusals_of_locks(lab):
    """`bad lock`, `already asked`, `never asked` and `bad params`, at a source and at a relay."""
    for node in lab.tier():
        with node.session() as session:
            session.ask("lock", "L")
            equal(refusal(session, "lock", "L"), "already asked", f"{node.name}: lock twice")
            equal(refusal(session, "steal", "L"), "already asked", f"{node.name}: steal one's own")
            equal(refusal(session, "unlock", "M"), "never asked", f"{node.name}: unlock another")
            for name in ("_none", "a-b", "", "1a"):
                equal(refusal(session, "lock", name), "bad lock", f"{node.name}: lock {name!r}")
            for params in ([], [1], [None]):
                equal(refusal(session, "lock", *params), "bad params", f"{node.name}: lock {params!r}")


@check(240)
def asserting_a_lock(lab):
    """A transaction that asserts a lock is committed for its owner alone."""
    _, relay = lab.tier()
    owner, other = relay.session(), relay.session()
    claim = {"op": "assert", "lock": "L"}
    equal(owner.transact("net", claim, insert(name="p")), [{"error": "not owner"}, None], "before the lock is asked for")
    lock(owner)
    is_owner(owner)
    equal(owner.transact("net", claim, insert(name="p"))[0], {}, "the owner's assertion")
    equal(other.transact("net", claim, insert(name="q")), [{"error": "not owner"}, None], "another's assertion")
    lock(other)
    equal(other.transact("net", claim, insert(name="q")), [{"error": "not owner"}, None], "the assertion of one that waits")


@check(240)
def locks_without_a_source(lab):
    """When the source is lost the owner is told so, a steal is refused, and who waited is given the lock of the next source."""
    source, relay = lab.tier()
    first, second = relay.session(), relay.session()
    lock(first)
    is_owner(first)
    lock(second)
    source.stop()
    equal(first.notice(), ("stolen", ["L"]), "what the owner is told when the source is lost")
    equal(refusal(relay.session(), "steal", "L"), "source lost", "a steal without a source")
    lab.source(port=source.port)
    is_owner(second)
