"""The shortest forms of values by the rules of the wire format, for `speed_sums.py`; it shares no code with the
crates. Types are named as in rows."""
import re

from plain_pager import varint
from plain_values import split

# The type of the items of a list.
LIST = re.compile(r"Vec<(.*)>$")

# The shortest forms of types without parameters.
FORMS = {
    **dict.fromkeys(("u32", "u64"), varint),
    "u8": lambda value: bytes([value]),
    "String": lambda value: varint(len(value.encode())) + value.encode(),
}


def form(name, value):
    """The shortest form of a value; a map's is its entries."""
    if name in FORMS:
        return FORMS[name](value)
    if name.startswith("("):
        return b"".join(map(form, split(name[1:-1]), value))
    if found := LIST.match(name):
        return varint(len(value)) + b"".join(form(found[1], item) for item in value)
    outer, _, inside = name[:-1].partition("<")
    if outer.endswith("Map"):
        return form(f"Vec<({inside})>", value if outer == "IndexMap" else sorted(value))
    raise SystemExit(f"no form is known of {name}")
