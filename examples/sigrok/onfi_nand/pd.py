"""The pins of an ONFI NAND bus, cycle by cycle."""
import sigrokdecode as srd

from .operations import Operations
from .watching import Watch

NAMES = {0x00: ('Read', 'RD'), 0x05: ('Change Read Column', 'RCOL'), 0x06: ('Change Read Column Enhanced', 'RCOLE'), 0x10: ('Program', 'PROG'), 0x11: ('Program, plane', 'PROGP'),
         0x15: ('Program, cache', 'PROGC'), 0x30: ('Read begins', 'RDB'), 0x31: ('Read Cache', 'RDC'), 0x32: ('Read, plane', 'RDP'), 0x35: ('Copyback Read', 'CBRD'), 0x3f: ('Read Cache End', 'RDCE'),
         0x60: ('Block Erase', 'ER'), 0x70: ('Read Status', 'ST'), 0x78: ('Read Status Enhanced', 'STE'), 0x80: ('Page Program', 'PG'), 0x85: ('Change Write Column', 'WCOL'),
         0x90: ('Read ID', 'ID'), 0xd0: ('Erase begins', 'ERB'), 0xd1: ('Erase, plane', 'ERP'), 0xe0: ('Column set', 'COL'), 0xec: ('Read Parameter Page', 'PAGE'), 0xed: ('Read Unique ID', 'UID'),
         0xee: ('Get Features', 'GF'), 0xef: ('Set Features', 'SF'), 0xfa: ('Reset LUN', 'RSTL'), 0xfc: ('Synchronous Reset', 'RSTS'), 0xff: ('Reset', 'RST')}
CE, CLE, ALE, WE, RE, DQ = 0, 1, 2, 3, 4, 5
MORE_CE, RB = 13, 16  # CE1# to CE3#, and R/B# of all targets or of the first, then those of the others
TARGETS = 4
LINES = (('ce', 'CE#'), ('cle', 'CLE'), ('ale', 'ALE'), ('we', 'WE#'), ('re', 'RE#'))
KINDS = {'C': 0, 'A': 1, 'I': 2, 'O': 3}
READY, OPERATION, FAULT = 4, 5, 6


def channel(its_id, name, what):
    return {'id': its_id, 'name': name, 'desc': what}


class Decoder(srd.Decoder):
    api_version = 3
    id = 'onfi_nand'
    name = 'ONFI NAND'
    longname = 'ONFI NAND flash bus (SDR)'
    desc = 'Cycles and operations of an ONFI NAND bus, and the rule that a cycle breaks.'
    license = 'mit'
    inputs, outputs, tags = ['logic'], [], ['Memory']
    channels = tuple(channel(i, n, n) for i, n in LINES) + tuple(channel('dq%d' % k, 'DQ%d' % k, 'Data %d' % k) for k in range(8))
    optional_channels = tuple(channel('ce%d' % k, 'CE%d#' % k, 'Chip enable of target %d' % k) for k in range(1, TARGETS)) + (
        channel('rb', 'R/B#', 'Ready, of all targets that have none of their own'),) + tuple(channel('rb%d' % k, 'R/B%d#' % k, 'Ready of target %d' % k) for k in range(1, TARGETS))
    options = ({'id': 'page', 'desc': 'Parameter page of the chips (file); none: nothing is judged', 'default': ''},
               {'id': 'profile', 'desc': 'Commands that are permitted', 'default': 'base', 'values': ('base', 'onfi')},
               {'id': 'outputs', 'desc': 'Outputs are taken where RE# does so (fall: EDO)', 'default': 'rise', 'values': ('rise', 'fall')})
    annotations = (('command', 'Command'), ('address', 'Address'), ('input', 'Data in'), ('output', 'Data out'), ('ready', 'Ready'), ('operation', 'Operation'), ('fault', 'Broken rule'))
    annotation_rows = (('cycles', 'Cycles', (0, 1, 2, 3)), ('readies', 'Readies', (READY,)), ('operations', 'Operations', (OPERATION,)), ('faults', 'Broken rules', (FAULT,)))
    binary = (('data', 'Data out'),)

    def __init__(self):
        self.reset()

    def reset(self):
        self.watch = self.begun = self.late = self.samples_a_second = None

    def metadata(self, key, value):
        if key == srd.SRD_CONF_SAMPLERATE:
            self.samples_a_second = value

    def start(self):
        self.ann, self.bin = self.register(srd.OUTPUT_ANN), self.register(srd.OUTPUT_BINARY)
        self.enables = {0: CE, **{k: MORE_CE + k - 1 for k in range(1, TARGETS) if self.has_channel(MORE_CE + k - 1)}}
        self.operations = {ce: Operations() for ce in self.enables}
        # Each R/B#, with the targets that it is of.
        own = {RB + ce: [ce] for ce in self.enables if ce and self.has_channel(RB + ce)}
        shared = {RB: [ce for ce in self.enables if RB + ce not in own]} if self.has_channel(RB) else {}
        self.readies = {**shared, **own}
        if self.options['page']:
            with open(self.options['page'], 'rb') as page:
                self.watch = Watch(page.read(), max(self.enables) + 1, self.options['profile'], bool(self.readies))

    def tell(self, begin, end, kind, words):
        self.put(begin, end, self.ann, [kind, words])

    def tell_operation(self, ce, it):
        if it:
            words = it.words(self.watch and self.watch.geometry, self.samples_a_second)
            self.tell(it.begin, it.end, OPERATION, [self.of_target(ce) + words, words.split(';')[0], it.name()])

    def of_target(self, ce):
        """What is said of a target, where there are several."""
        return 'CE%d: ' % ce if len(self.enables) > 1 else ''

    def cycle(self, pins, begin, end, kind, byte):
        """A cycle, on each target that is enabled."""
        full, short = NAMES.get(byte, ('Command', 'CMD')) if kind == 'C' else ({'A': 'Address', 'I': 'In', 'O': 'Out'}[kind], kind)
        for ce in (ce for ce, pin in self.enables.items() if pins[pin] == 0):
            self.tell(begin, end, KINDS[kind], [self.of_target(ce) + '%s %02Xh' % (full, byte), '%s %02X' % (short, byte), '%02X' % byte])
            fault = self.watch and self.watch.see(ce, kind, byte)
            if fault:
                self.tell(begin, end, FAULT, [self.of_target(ce) + (fault.cause or str(fault).split(': ', 1)[1]), fault.code])
            self.tell_operation(ce, self.operations[ce].see(kind, byte, begin, end))
            if kind == 'O':
                self.put(begin, end, self.bin, [0, bytes([byte])])

    def rise(self, targets):
        """R/B# of these targets has risen: each LUN that works is ready."""
        for ce in targets:
            self.operations[ce].rise(self.samplenum)
            for lun in self.watch.rise(ce) if self.watch else ():
                self.tell(self.samplenum, self.samplenum + 1, READY, [self.of_target(ce) + 'LUN %d is ready' % lun, 'R %d' % lun, 'R'])

    def take_late(self, byte):
        """An output that is taken behind the rise of its RE#: where RE# falls next, or a latch or a chip enable rises."""
        late, self.late = self.late, None
        if late:
            self.cycle(*late, 'O', byte)

    def see(self, pins, ends, falls, we_rises, re_rises):
        at, byte = self.samplenum, sum((pins[DQ + k] & 1) << k for k in range(8))
        if ends or falls:
            self.take_late(byte)
        if falls:
            self.begun = at
        if self.begun is None:
            return
        if we_rises and not (pins[CLE] and pins[ALE]):
            self.cycle(pins, self.begun, at, 'C' if pins[CLE] else 'A' if pins[ALE] else 'I', byte)
        if re_rises and self.options['outputs'] == 'fall':
            self.late = pins, self.begun, at
        elif re_rises:
            self.cycle(pins, self.begun, at, 'O', byte)

    def decode(self):
        waits = [{WE: 'f'}, {WE: 'r'}, {RE: 'f'}, {RE: 'r'}] + [{pin: 'r'} for pin in self.readies]
        if self.options['outputs'] == 'fall':
            waits += [{pin: 'r'} for pin in (CLE, ALE, *self.enables.values())]
        while True:
            try:
                pins = self.wait(waits)
            except EOFError:
                for ce, its in self.operations.items():
                    self.tell_operation(ce, its.end())
                raise
            for targets, has_risen in zip(self.readies.values(), self.matched[4:]):
                if has_risen and self.samplenum:
                    self.rise(targets)
            self.see(pins, any(self.matched[4 + len(self.readies):]), self.matched[0] or self.matched[2], self.matched[1], self.matched[3])
