"""A test bench monitor in Python: each item of a trace is shown to it, and it stops at the first that breaks a rule; then a program is verified.

    python3 examples/python/monitor.py out/libonfiseq.so chip.page program.asm < cycles.trace
"""
import sys

import onfiseq


def main():
    lib = onfiseq.load(sys.argv[1])
    page = open(sys.argv[2], "rb").read()
    monitor = onfiseq.Monitor(lib, page)
    try:
        for line in sys.stdin:
            ce, kind, *rest = line.split()
            if kind == "R":
                monitor.ready(int(ce), int(rest[0]), rest[1] == "1")
            elif kind == "Y":
                monitor.array_ready(int(ce), int(rest[0]))
            else:
                monitor.push(int(ce), kind, int(rest[0], 16))
        print("every item is permitted, %d of them" % monitor.count)
    except onfiseq.Fault as fault:
        print(fault)
    lun = monitor.look(0, 0)
    print("LUN 0 is %s, its queue has %d rows" % ("busy" if lun.busy else "ready", lun.queued))
    try:
        onfiseq.verify(lib, page, onfiseq.assemble(lib, open(sys.argv[3]).read()))
        print("%s: accepted" % sys.argv[3])
    except onfiseq.Refused as refused:
        print("%s: %s" % (sys.argv[3], refused))
        for item in refused.run:
            print("    %d %s %02x" % (item.ce, chr(item.kind), item.byte))


main()
