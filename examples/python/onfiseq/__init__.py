"""onfiseq for Python: the calls of onfiseq.h by ctypes, with nothing but Python.

    import onfiseq
    lib = onfiseq.load("out/libonfiseq.so")     # load() takes that of ONFISEQ_LIBRARY, or the one beside this package
    monitor = onfiseq.Monitor(lib, open("chip.page", "rb").read(), targets=1)
    monitor.command(0, 0x60)                    # raises onfiseq.Fault with the rule where the channel doesn't permit it
    monitor.address(0, b"\\4\\0\\0")               # a run of bytes is one call

    onfiseq.check(open("chip.page", "rb").read(), 1, open("bus.trace").read(), profile="onfi")      # a whole trace: plain data, {"legal": True, ..}

`python3 tools/c_library.py` builds libonfiseq.so. A cocotb test calls the monitor's methods at the edges of WE#, RE# and R/B#.
"""
from .channel import Fault, Monitor
from .library import VERSION, Missing, Refused, load, load_own, name_of, words
from .programs import assemble, check, disassemble, trace, verify
from .records import Bus, Geometry, Item, Look, Part, Spot, record, size

Broken = Fault  # its name before

__version__ = "0.2.0"

__all__ = ["Broken", "Bus", "Fault", "Geometry", "Item", "Look", "Missing", "Monitor", "Part", "Refused", "Spot", "VERSION"]
__all__ += ["assemble", "check", "disassemble", "load", "load_own", "name_of", "record", "size", "trace", "verify", "words"]
