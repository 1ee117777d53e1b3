"""Scripts: requests of several workers and a schedule, played in one call."""

from __future__ import annotations

from typing import Union

from .answers import check
from .lent import Lent
from .listing import Listing


def run(script: Union[str, bytes]) -> Listing:
    """Plays a script on a fresh catalogue of its own and returns its result.

    No other catalogue is touched. A text is played as its UTF-8 bytes. One that is no script raises
    ScriptRefused, whose `line` is the first bad one.
    """
    lent = Lent()
    count = check(lent.run(script.encode() if isinstance(script, str) else bytes(script)))
    return Listing.read(lent.text(count))
