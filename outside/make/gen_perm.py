#!/usr/bin/env python3
"""gen_perm.py: every AP, UXN, PXN, APTable, UXNTable, PXNTable and WXN, for each access at EL0, EL1, EL2 and EL3."""
from lib import perm_case

KINDS = ["ld@0", "st@0", "if@0", "ld@1", "st@1", "if@1", "ldt@1", "stt@1",
         "ld@2", "st@2", "if@2", "ldt@2", "stt@2", "ld@3", "st@3", "if@3"]

if __name__ == "__main__":
    for name in KINDS:
        for bits in range(512):
            print(perm_case(name, bits))
