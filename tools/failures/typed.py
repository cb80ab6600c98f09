"""Rows of calls of typed references to texts, while a request for memory is refused or a call of the storage fails."""

from shared import SharedRun


class TypedRun(SharedRun):
    """One run of such a row on a new storage, whose polled fetch is pending once."""

    SORT, OVER, CALL, PEEK = "typed", "typed-over", "typed", "typed-peek"

    def counted_as(self, name):
        return f"typed-{name}"

    def list_by(self, loose):
        """Lists the cell of this loose reference: it is pinned, and the last of its pins goes."""
        _, made = self.ask(f"pin_sync {loose}")
        self.ask(f"unpin {loose}")
        self.ask(f"release {made.split()[1]}")
