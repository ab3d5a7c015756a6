"""One history over several upstreams at once, while all workers of a relay serve readers."""
import json
import threading

from data import FIRST_ID, NET, nth, select
from ends import closing
from harness import WORKERS, check, equal, holds
from processes import PATIENCE
from upstream import Upstream, unknown
from upstreams import change, commit_id, sound

COMMITS = 3
# The most upstreams that a relay has, and how often each breaks off before it tells all.
MOST_UPSTREAMS, BREAKS = 4, 2
WAITS = 30
LAST = nth(FIRST_ID, COMMITS)


class Readers:
    """Clients, each with one connection in a thread of its own, that select until they see the last commit, and leave together."""

    def __init__(self, node, number):
        self.node, self.faults, self.seen = node, [], []
        self.are_seated, self.have_seen = threading.Barrier(number + 1), threading.Barrier(number + 1)
        self.threads = [threading.Thread(target=self._read, daemon=True) for _ in range(number)]
        for thread in self.threads:
            thread.start()

    def _shown(self, session):
        return [row["_version"][1] for row in session.transact("net", select())[0]["rows"]]

    def _read(self):
        try:
            with self.node.session(WAITS) as session:
                equal(self._shown(session), [], "what is there before an upstream says anything")
                self.are_seated.wait(WAITS * PATIENCE)
                seen = [[]]
                while seen[-1] != [LAST]:
                    shown = self._shown(session)
                    seen += [shown] if shown != seen[-1] else []
                self.seen.append(seen)
                self.have_seen.wait(WAITS * PATIENCE)
        except Exception as fault:  # pylint: disable=broad-except
            self.faults.append(fault)
            self.are_seated.abort()
            self.have_seen.abort()

    def meet(self, barrier, what):
        try:
            barrier.wait(WAITS * PATIENCE)
        except threading.BrokenBarrierError:
            raise AssertionError(f"{what}: {self.faults!r}") from None


def cut_in_pieces(begins, ends, cuts):
    """The script of an upstream that begins from nothing each time and tells the three commits, once cut behind each of these numbers of bytes,
    and then whole, when it stays until the end."""
    left = list(cuts)

    def script(connection):
        connection.begin(unknown)
        begins.wait(WAITS * PATIENCE)
        is_last = not left
        texts = [{"id": None, "method": "update3", "params": [connection.name, commit_id(number), change(number)]} for number in range(1, COMMITS + 1)]
        text = b"".join(json.dumps(told).encode() for told in texts)
        connection.send_bytes(text if is_last else text[: left.pop(0)])
        if is_last:
            ends.wait(WAITS * PATIENCE)

    return script


def by_so_many_ways(lab, number, statuses, *more):
    """A relay of so many upstreams, and as many readers as there are workers, of which each takes one connection."""
    begins, ends = threading.Event(), threading.Event()
    cuts = [[40 + 61 * (place + number * round_) for round_ in range(BREAKS)] for place in range(number)]
    upstreams = [lab.keep(Upstream(NET, cut_in_pieces(begins, ends, each))) for each in cuts]
    relay = lab.relay(upstreams, "--tries", str(BREAKS + 1), "--accepts", "1", *more)
    readers = Readers(relay, WORKERS)
    readers.meet(readers.are_seated, f"{number} upstreams: each worker serves a reader")
    begins.set()
    readers.meet(readers.have_seen, f"{number} upstreams: each reader sees the last commit")
    for thread in readers.threads:
        thread.join(WAITS * PATIENCE)
    ends.set()
    status = relay.child.wait(WAITS)
    holds(status in statuses, f"{number} upstreams: the relay's status is {status}")
    equal(relay.child.output(), closing(LAST, COMMITS, COMMITS), f"{number} upstreams: the relay's output")
    equal([len(upstream.connections) for upstream in upstreams], [BREAKS + 1] * number, f"{number} upstreams: how often each was asked")
    sound(*upstreams)
    for seen in readers.seen:
        # What a reader was shown are commits of the one history, and it never went back.
        numbers = [int(shown[0][-2:], 16) - int(FIRST_ID[-2:], 16) for shown in seen[1:]]
        holds(all(len(shown) == 1 for shown in seen[1:]) and numbers == sorted(numbers), f"{number} upstreams: a reader was shown {seen!r}")


@check(240)
def one_history_to_eight_readers(lab):
    """One to four upstreams that tell the same commits from the first on, each broken off twice, behind other bytes each time: eight readers, one
    at each worker, see the last commit, never go back, and the relay ends with these commits, none of which was refused."""
    for number in range(1, MOST_UPSTREAMS + 1):
        by_so_many_ways(lab, number, [0])


@check(240)
def no_refusal_among_eight_readers(lab):
    """With `--end-on-refusal` such a relay of four upstreams ends when none of them is tried any more, and not with the status of a refusal."""
    by_so_many_ways(lab, MOST_UPSTREAMS, [0, 3], "--end-on-refusal")
