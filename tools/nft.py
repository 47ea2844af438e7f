#!/usr/bin/env python3
"""Makes a ruleset for nftables of the admitted rules, for what comes in by a device.

    welgutan rules CONFIG TAPE | tools/nft.py DEVICE [--table NAME] [--check] [--sample GROUP] > rules.nft
    nft -f rules.nft

It reads what `rules` writes. Loaded, the ruleset replaces the table's last one at once, and acts at the ingress of the
device. Each rule has a counter; with --check rules count and do nothing else. With --sample the rules that sample log
to that group. What nftables can't do is told on standard error. If a line is none of a listing, it is told, the status
is 1, and nothing is written. `docs/FORMATS.md` says what stands for what. `bench/kernel.py` tries that the kernel then
does what `enforce` says; nothing of it is proved.

    tail -c +1 -F DUMP | tools/nft.py --with-ends CONFIG

It hands a dump on, with the ends of sessions that bird tells without an address under their peers. Where an end may be
one of several peers', it tells that and ends with status 3; with 1 where CONFIG can't be read.
"""

import sys

from welgutan import ends
from welgutan.command import main

if __name__ == "__main__":
    if sys.argv[1:2] == ["--with-ends"] and len(sys.argv) == 3:
        sys.exit(ends.main(sys.argv[2]))
    sys.exit(main(__doc__))
