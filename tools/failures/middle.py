"""Rows of failures in the middle, with the answers that are wanted."""

from naming import Unlike
from shared import SharedRun

# The cell's first fetch fails: the pin answers that, the cell is as it was, and a second pin has its text.
FETCH = """
new_loose 0 hello world -> ok $a
unpin $a -> ok
page_out_pending -> ok
pin $a -> refused 23 7
count $a -> ok 0
is_paged_out $a -> yes
pin $a -> ok $p = hello world
count $a -> ok 2
"""
# A cell with a key holds the other's handle, and lets it go with its last pin: the other one is to be listed then, and
# the list can't grow.
BEFORE = "new_loose 3; clone 1; unpin 2; store 00; store 01:1; new_loose 3 10:1:1; set_data_key 3 20"
AFTER = "is_paged_out 3; is_paged_out 2; count 2; pending; schedule_for_paging 2; pending"


def failed_fetch(server, tally):
    run = SharedRun(server, tally, 0, 1)
    for line in FETCH.strip().splitlines():
        call, _, wanted = line.partition(" -> ")
        run.compare(call, wanted, run.ask(call)[1])


def unlisted(server, tally):
    """The list's growth is refused while the pin goes: the request of one place is that growth."""
    for place in range(2, 9):
        server.ask("machine")
        server.ask(f"ask 0 {BEFORE}")
        answer = server.ask(f"ask {place} unpin 3")
        tally.count("unpin 3", answer.partition(" ")[2])
        after = server.ask(f"ask 0 {AFTER}")
        if answer == "met refused 22" and after == "free yes; no; ok 0; ok 0; ok; ok 1":
            return
    raise Unlike(f"`{answer}`, and then `{after}`")


def rows(server, tally):
    for name, row in (("a failed fetch", failed_fetch), ("a list that can't grow", unlisted)):
        try:
            row(server, tally)
            tally.places["in the middle", "rows"] += 1
        except Unlike as why:
            tally.fault(name, why)
