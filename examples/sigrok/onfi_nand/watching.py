"""A channel that is judged by the library, and goes on after a fault."""
import onfiseq


class Watch:
    """A monitor of a channel: after a fault the open sequence is forgotten, and what comes is passed over up to the next command that begins something."""

    def __init__(self, page, targets, profile, sees_ready):
        self.monitor = onfiseq.Monitor(onfiseq.load(), page, targets, sees_ready, profile)
        # Whether cycles are passed over, and whether data are that a 00h goes back to from a status that was asked for meanwhile.
        self.passes, self.goes_back = [False] * targets, [False] * targets

    @property
    def geometry(self):
        return self.monitor.geometry

    def see(self, ce, kind, byte):
        """A cycle of a target: the fault that is to be told of it, None where it is permitted or passed over."""
        if self.passes[ce] and kind != "C":
            return None
        if kind == "C" and byte not in (0x00, 0x70, 0x78):
            self.goes_back[ce] = False
        fault = self._push(ce, kind, byte)
        if fault is None:
            self.passes[ce] = False
            return None
        if self.passes[ce] and fault.code == "F6" or self.goes_back[ce] and kind == "O":
            return None
        self._go_on(ce, kind, byte)
        return fault

    def _go_on(self, ce, kind, byte):
        """Forgets the open sequence; a command that came in its midst may begin one."""
        self.monitor.drop(ce)
        self.passes[ce] = self.goes_back[ce] = kind != "C" or self._push(ce, kind, byte) is not None

    def _push(self, ce, kind, byte):
        try:
            self.monitor.push(ce, kind, byte)
        except onfiseq.Fault as fault:
            return fault
        return None

    def rise(self, ce):
        """R/B# of a target has risen: the LUNs that worked, each of which is ready."""
        looks = ((lun, self.monitor.look(ce, lun)) for lun in range(4))
        luns = [lun for lun, look in looks if look and look.busy]
        for lun in luns:
            self.monitor.ready(ce, lun)
        return luns
