#!/usr/bin/env python3
"""gen_entry.py: every exception kind from EL0 to EL3 under each setting of SCR.{NS,EA,SMD,HCE} and HCR.{TGE,TSC}, stage 1 off."""
from lib import OWN_TABLE

KINDS = ["svc", "hvc", "smc", "brk", "udf", "mrs", "msr3", "br", "if", "ld", "st"]
LEVELS = ["0", "1", "1t", "2", "2t", "3"]                  # t: PSTATE.SP clear
ADDRESSES = {"br": [0x40201802, 0x40201801, 0x80000003], "if": [0x80000000, 0x7FFF0002], "ld": [0x80000000], "st": [0x80000008]}
NS, EA, SMD, HCE = 1, 8, 0x80, 0x100
TGE, TSC = 1 << 27, 1 << 19


def cases():
    for kind in KINDS:
        for level in LEVELS:
            el = int(level[0])
            if kind == "mrs" and el or kind == "msr3" and el == 3:
                continue                                   # not undefined there
            for ns in (0, NS):
                if el == 2 and not ns:
                    continue                               # no EL2 in secure state
                for scr in (0, EA, SMD, HCE, SMD | HCE):
                    if scr == EA and kind not in ("ld", "st", "if", "udf"):
                        continue
                    if kind == "hvc" and el == 3 and scr & HCE:
                        continue                           # QEMU 7.2 takes it down to EL2 and the guest is lost
                    for hcr in (0, TGE, TSC, TGE | TSC):
                        if el == 1 and ns and hcr & TGE:
                            continue                       # an illegal exception return
                        yield from lines(kind, level, 0x430 | ns | scr, 1 << 31 | hcr)


def lines(kind, level, scr, hcr):
    lower = level[0] < "2"
    for va in ADDRESSES.get(kind, [0]):
        yield "%s@%s scr=%x hcr=%x sctlr=%x tcr=280190019%s mair=ff va=%x" % (
            kind, level, scr, hcr, 0x30D00800 if lower else 0x30C50830, " ttbr0=%x" % OWN_TABLE if lower else "", va)


if __name__ == "__main__":
    for line in cases():
        print(line)
