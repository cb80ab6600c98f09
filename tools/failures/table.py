"""Each error of each call that the rules name, which has to have come more than never."""

NAMES = dict(enumerate((
    "UnexpectedEnd BadVarint BadBool BadUtf8 BadChar TooLong TooDeep JsonCase JsonNumber BadDuration RegexRefused"
    " UnknownTag BadStaticIndex Unregistered NoMoreKeys NoData WrongKind NoSuchHandle WrongMode NotYours NumbersSpent"
    " OutOfMemory Storage KeyTaken Closed Custom"
).split(), 1))
# What calls of a pager, events of a machine, steps of a worker, values and calls on a storage that threads share may be
# refused by. A call that ends in `_shared` stands on such a storage, where one of its name stands on a pager too.
TEXT = """
new_pinned new_loose new_shared: 17 18 19 20 21 22
on_arc_deserialized load_adopt load_end: 17 18 19 20 21 22
new_paged_out cache_get load_key read: 21 22
clone: 18 21 22
pin unpin load_begin start: 18 19 20 21 22
release set_data_key load_drop: 18 20 21 22
into_pagable load_take: 18 19 20
count key is_paged_out node_of: 18
schedule_for_paging: 18 19 20 22
fetch: 16 23
store: 22 23 24 25
flush: 23
load_fetch: 16 18 20 21 22 23
load_lazy: 17 18 20 21 22
reserve run table: 22
step: 1 2 3 4 6 7 15 16 17 18 19 20 21 22 23
item: 18 21 22
listed: 17 18 21 22
work-claim: 7 17 18 19 22
work-pin: 16 17 18 21 22 23
work-write: 22 26
work-store: 22 23 24 25
work-set: 21 22
value-read: 1 2 3 4 5 6 7 8 9 10 11 12 13 22
value-write: 7 9 14 22
pin_shared: 20 21 22 23
read_shared: 21 22 23
fetch_arc_or_data: 16 21 22 23
page_out_item: 18 21 22 23 26
page_out_pending: 21 22 23 24 26
page_out_all: 21 22 23
typed-loose typed-pinned typed-shared typed-away typed-clone typed-borrow typed-unpin typed-release: 21 22
typed-pin_sync typed-follow typed-polled: 16 21 22 23
typed-page_out_pending: 21 22 23
pagectl-buffers pagectl-new pagectl-pin pagectl-unpin pagectl-pageout: 22
"""
# Those that can't come here, and why.
NEVER = {
    ("fetch", 22): "blobs in memory are shared, which takes no memory",
    ("work-set", 21): "a worker's handle pins the cell, so that nothing is listed",
    ("work-set", 22): "a worker's handle pins the cell, so that nothing is listed",
    ("typed-page_out_pending", 21): "a text refers to nothing, and such a cell is paged out without a worker's handle",
    ("value-write", 6): "a list of so many items would take 4 GiB",
}


def wanted():
    """The calls of the text, each with its refusals."""
    for line in TEXT.strip().splitlines():
        calls, _, numbers = line.partition(": ")
        yield from ((call, [int(number) for number in numbers.split()]) for call in calls.split())


def printed(refusals):
    """Prints the table, a line for each call; what had to come and never came, and what came and can't."""
    missing = []
    for call, numbers in wanted():
        others = {number for of, number in refusals if of == call}
        came = {number: refusals[call, number] for number in sorted(others.union(numbers))}
        print(f"{call}: " + ", ".join(f"{NAMES[number]} {count}" for number, count in came.items()))
        never = [number for number in numbers if not came[number] and (call, number) not in NEVER]
        missing += [f"{call} was never refused with {NAMES[number]}" for number in never]
    for (call, number), why in NEVER.items():
        print(f"{call}: {NAMES[number]} can't come: {why}")
        if refusals.get((call, number)):
            missing.append(f"{call} was refused with {NAMES[number]}, which can't come: {why}")
    return missing
