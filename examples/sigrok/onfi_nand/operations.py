"""The operations on a bus, as `onfiseq ops` has them: what begins with a command, up to the next that begins one."""

PROGRAMS = {0x10: "", 0x11: "-plane", 0x15: "-cache"}
# The commands that may close a sequence, by the one that opens it.
CLOSERS = {0x00: (0x30, 0x31, 0x32, 0x35), 0x05: (0xE0,), 0x06: (0xE0,), 0x60: (0xD0, 0xD1), 0x80: tuple(PROGRAMS), 0x85: tuple(PROGRAMS)}
READS = {0x31: "read-cache-random", 0x32: "read-plane", 0x35: "copyback-read"}
NAMES = {0x05: "column", 0x06: "column-enhanced", 0x31: "read-cache", 0x3F: "read-cache-end", 0x70: "status", 0x78: "status", 0x90: "id", 0xEC: "parameters"}
NAMES.update({0xED: "unique-id", 0xEE: "get-features", 0xEF: "set-features", 0xFA: "reset-lun", 0xFC: "synchronous-reset", 0xFF: "reset"})
ONE_ADDRESS = (0x90, 0xEC, 0xED, 0xEE, 0xEF)
STATUS, WORKS_ALONE = (0x70, 0x78), (0x31, 0x3F, 0xEC, 0xED, 0xEE, 0xEF, 0xFA, 0xFC, 0xFF)
RDY, FAIL = 0x40, 0x01


class Operation:
    """An operation of a target, from its first sample to its last so far."""

    def __init__(self, opener, begin, end):
        self.opener, self.begin, self.end = opener, begin, end
        self.closer = self.closed_at = self.ready_at = self.status = None
        self.is_polled = False
        self.addresses, self.inputs, self.outputs, self.polls = [], 0, 0, 0

    def name(self):
        if self.opener == 0x00:
            return READS.get(self.closer, "read")
        if self.opener == 0x60:
            return "erase-plane" if self.closer == 0xD1 else "erase"
        if self.opener in (0x80, 0x85):
            return ("program" + PROGRAMS.get(self.closer, "")) if self.opener == 0x80 else "copyback-program"
        return NAMES.get(self.opener, "%02x" % self.opener)

    def works(self):
        """Whether it has begun work whose end no status has shown."""
        begun = self.opener in WORKS_ALONE or self.closer not in (None, 0xE0)
        return begun and not (self.status is not None and self.status & RDY)

    def place(self, geometry):
        """Its block, page and column, by the chip's geometry, or its one address; nothing where there is none."""
        if self.opener in ONE_ADDRESS and self.addresses:
            return "a%02x" % self.addresses[0]
        if self.opener == 0x05 and len(self.addresses) == 2:
            return "c%d" % int.from_bytes(bytes(self.addresses), "little")
        wants = {0x60: 3, 0x00: 5, 0x80: 5, 0x85: 5}.get(self.opener)
        if geometry is None or wants is None or len(self.addresses) < wants:
            return ""
        row = int.from_bytes(bytes(self.addresses[wants - 3 : wants]), "little")
        bits = (geometry.pages - 1).bit_length()
        block, page = row >> bits & (1 << (geometry.blocks - 1).bit_length()) - 1, row & (1 << bits) - 1
        return "b%d" % block if wants == 3 else "b%d p%d c%d" % (block, page, int.from_bytes(bytes(self.addresses[:2]), "little"))

    def words(self, geometry, samples_a_second):
        """A line of it, as `onfiseq ops` says it."""
        place, parts = self.place(geometry), []
        parts += ["in %d" % self.inputs] * bool(self.inputs) + ["out %d" % self.outputs] * bool(self.outputs)
        if self.ready_at is not None and samples_a_second:
            parts.append("busy %.9g us" % (1e6 * (self.ready_at - self.closed_at) / samples_a_second))
        parts += ["polls %d" % self.polls] * bool(self.polls)
        if self.status is not None and self.status & RDY:
            parts.append("%s %02x" % ("failed" if self.status & FAIL else "ready", self.status))
        elif self.ready_at is not None:
            parts.append("ready")
        return self.name() + " " * bool(place or parts) + "; ".join([place] * bool(place) + parts)


class Operations:
    """The operations of one target: each is answered once the next begins."""

    def __init__(self):
        self.current = None
        self.held = None  # a 00h, which begins a read or goes back to its data

    def see(self, kind, byte, begin, end):
        """A cycle: the operation that ends with it, if one does."""
        if kind == "C":
            return self._command(byte, begin, end)
        ended = self._release(kind)
        if self.current:
            self._count(kind, byte)
            self.current.end = end
        return ended

    def _command(self, byte, begin, end):
        it, self.held = self.current, None
        is_column = it and byte == 0x85 and it.opener in (0x80, 0x85) and it.closer is None
        if it and it.closer is None and byte in CLOSERS.get(it.opener, ()):
            it.closer, it.closed_at = byte, end
        elif it and byte in STATUS and it.works():
            it.is_polled = True
        elif byte == 0x00:
            self.held = begin, end
            return None
        elif not is_column:
            return self._begin(byte, begin, end)
        it.end = end
        return None

    def _begin(self, byte, begin, end):
        ended, self.current = self.current, Operation(byte, begin, end)
        self.current.closed_at, self.current.is_polled = end, byte in STATUS
        return ended

    def _release(self, kind):
        """A 00h that was held begins a read where an address comes; else it goes back to the data of the one before."""
        held, self.held = self.held, None
        if held and kind == "A":
            return self._begin(0x00, *held)
        if held and self.current:
            self.current.is_polled = False
        return None

    def _count(self, kind, byte):
        it = self.current
        if kind == "A" and not it.is_polled:
            it.addresses.append(byte)
        it.inputs += kind == "I"
        if kind == "O" and it.is_polled:
            it.polls, it.status = it.polls + 1, byte
        else:
            it.outputs += kind == "O"

    def rise(self, at):
        """R/B# has risen."""
        if self.current and self.current.works() and self.current.ready_at is None:
            self.current.ready_at = self.current.end = at

    def end(self):
        """The last operation, where the recording ends."""
        return self.current
