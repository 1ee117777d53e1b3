#!/usr/bin/env python3
"""Two collectors that each derive from the other's series, stepped in turn.

The two derivations would close a loop. While both are on trial each blocks the other, so both are
refused. When the collectors try again one after the other, the first one succeeds.
"""

import sys
from pathlib import Path

sys.path.insert(0, str(Path(__file__).resolve().parent.parent))

from pallaymi import AddDerivation, AddSeries, Catalogue, Reply  # noqa: E402

READS, WRITES = 10, 20
WANTED = (AddDerivation(READS, WRITES), AddDerivation(WRITES, READS))


def turn_about(catalogue: Catalogue) -> None:
    """Both collectors take up what they want, and then step in turn."""
    calls = [catalogue.take_up(worker, request) for worker, request in enumerate(WANTED)]
    while catalogue.busy:
        for worker in catalogue.busy:
            told = calls[worker].step()
            if isinstance(told, Reply):
                print(f"collector {worker}, step {calls[worker].steps}: {told.name}")
            else:
                print(f"collector {worker}, step {calls[worker].steps}: going on, met {told.met}")


def one_by_one(catalogue: Catalogue) -> None:
    """Each collector steps to its reply before the other begins."""
    for worker, request in enumerate(WANTED):
        print(f"collector {worker}: {catalogue.ask(worker, request).name}")


def show(catalogue: Catalogue) -> None:
    """Prints what the catalogue holds."""
    listing = catalogue.listing()
    print("series:", *listing.series)
    print("derivations:", *(f"{source}->{derived}" for source, derived in listing.derivations))


def main() -> None:
    catalogue = Catalogue(workers=2)
    for worker, series in enumerate((READS, WRITES)):
        print(f"collector {worker} adds {series}: {catalogue.ask(worker, AddSeries(series)).name}")
    turn_about(catalogue)
    show(catalogue)
    one_by_one(catalogue)
    show(catalogue)


if __name__ == "__main__":
    main()
