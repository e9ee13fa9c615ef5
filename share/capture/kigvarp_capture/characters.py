"""Characters of a link, as words of rio decode and as other tools write them."""
import re

from .refusal import Refused

INVALID = "inv"
DATA = [f"d{byte:02x}" for byte in range(256)]
SPECIAL = [f"k{byte:02x}" for byte in range(256)]

NAMED = re.compile(r"([DK])(\d{1,2})\.([0-7])[+-]?", re.IGNORECASE)
NAMES_OF_INVALID = {"inv", "invalid", "err", "error", "bad"}

IDLES = {"kbc", "kfd", "kfb"}


def word_of(name: str, line: int) -> str:
    """The word of a character that is written by its name, as K28.3, D0.4+ or INV."""
    found = NAMED.fullmatch(name)
    if found and int(found[2]) < 32:
        byte = int(found[3]) << 5 | int(found[2])
        return (DATA if found[1] in "dD" else SPECIAL)[byte]
    if name.lower() in NAMES_OF_INVALID:
        return INVALID
    raise Refused(f"'{name}' is no name of a character, as K28.3 or D0.4", line)
