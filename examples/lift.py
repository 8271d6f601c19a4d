#!/usr/bin/env python3
"""Lifts chain A's region 18 to 25; python/README.md says how it is run."""
from pathlib import Path

from tenderchock import lift_region

# The file's first line is a comment, and no part of the chain's text.
chain = Path(__file__).with_name("a.chain").read_text().partition("\n")[2]
lifted = lift_region(chain, 18, 25)
print(f"{lifted.kept} kept, {lifted.dropped} dropped, {lifted.start} to {lifted.end}")
