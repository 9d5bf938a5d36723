# A protocol decoder for sigrok: PMBus, by the package pmb for Python.
#
# What the decoder `i2c` says is written as capture text, word by word, and pmb.Reader says what the
# packets mean. Each word's samples are kept until its packet has ended.

import os
import sys

import sigrokdecode as srd

WRITE, READ, CALL, NACK, ALERT, OTHER, REFUSAL, VALUE, BITS = range(9)
KINDS = {'write': WRITE, 'read': READ, 'call': CALL, 'refused': NACK, 'alert': ALERT, 'other': OTHER,
         'refusal': REFUSAL}
PLACES = {'address': 'no answer', 'code': 'NACK at the code', 'byte': 'NACK at a byte',
          'read address': 'NACK at the read address'}
WORDS = {'START': 'S', 'START REPEAT': 'S', 'STOP': 'P', 'ACK': 'A', 'NACK': 'N'}
BYTES = ('ADDRESS WRITE', 'ADDRESS READ', 'DATA WRITE', 'DATA READ')


def profile_of(addresses):
    """A profile of addresses that answered, with the standard's commands."""
    return ''.join('[[device]]\naddress = %d\npec = "optional"\n' % it for it in sorted(addresses)
                   if 0x08 <= it <= 0x77 and it != 0x0c) or 'device = []\n'


class Decoder(srd.Decoder):
    api_version = 3
    id = 'pmbus'
    name = 'PMBus'
    longname = 'Power Management Bus'
    desc = 'Packets, values and faults of power converters.'
    license = 'gplv2+'
    inputs = ['i2c']
    outputs = []
    tags = ['Embedded/industrial', 'Power management']
    options = (
        {'id': 'profile', 'desc': 'Profile of the bus, a TOML file (none: the addresses seen)',
         'default': ''},
        {'id': 'package', 'desc': 'Folder of the Python package pmb (none: as Python finds it)',
         'default': ''},
        {'id': 'addresses', 'desc': 'Addresses as the decoder below has them', 'default': 'shifted',
         'values': ('shifted', 'unshifted')},
    )
    annotations = (
        ('write', 'Write'), ('read', 'Read'), ('call', 'Process call'), ('nack', 'NACKed packet'),
        ('alert', 'Alert'), ('other', 'Not PMBus'), ('refusal', 'Protocol error'),
        ('value', 'Value'), ('bits', 'Status bits'),
    )
    annotation_rows = (
        ('packets', 'Packets', (WRITE, READ, CALL, NACK, ALERT, OTHER)),
        ('values', 'Values', (VALUE,)),
        ('status', 'Status bits', (BITS,)),
        ('refusals', 'Protocol errors', (REFUSAL,)),
    )

    def __init__(self):
        self.reset()

    def reset(self):
        self.reader = None
        self.places = []  # the samples of each event, from the event `first` on
        self.first = 0
        self.addresses = set()
        self.text = []  # all of it, where addresses make the profile
        self.address = None

    def start(self):
        self.out = self.register(srd.OUTPUT_ANN)
        folder = self.options['package'] or os.environ.get('PMB_PACKAGE', '')
        if folder and folder not in sys.path:
            sys.path.insert(0, folder)
        import pmb
        self.pmb = pmb
        self.made = not self.options['profile']
        if self.made:
            self.begin(profile_of(()))
        else:
            with open(self.options['profile'], encoding='utf-8') as file:
                self.begin(file.read())

    def begin(self, profile):
        self.reader = self.pmb.Reader(profile, digits=6)

    def decode(self, ss, es, data):
        kind, value = data
        if kind in BYTES:
            if kind.startswith('ADDRESS'):
                if self.options['addresses'] == 'shifted':
                    value = value << 1 | (kind == 'ADDRESS READ')
                self.address = value >> 1
            self.take('%02x' % (value & 255), ss, es)
        elif kind in WORDS:
            if kind == 'ACK' and self.address is not None:
                self.met(self.address)
            if kind in ('ACK', 'NACK'):
                self.address = None
            self.take(WORDS[kind], ss, es)

    def met(self, address):
        """An address answered: where addresses make the profile, a new one is read anew with all."""
        if not self.made or address in self.addresses:
            return
        self.addresses.add(address)
        self.begin(profile_of(self.addresses))
        for text in self.text:
            self.reader.feed(text)

    def take(self, word, ss, es):
        self.places.append((ss, es))
        text = word + ('\n' if word == 'P' else ' ')
        if self.made:
            self.text.append(text)
        found = [it for it in self.reader.feed(text) if 'at' in it]
        for i, it in enumerate(found):
            after = found[i + 1]['at'] if i + 1 < len(found) and 'part' in it else None
            self.tell(it, after)
        if word == 'P':
            self.first += len(self.places)
            self.places = []

    def tell(self, it, after):
        kind = KINDS.get(it['kind'])
        if kind is None:
            return
        at = max(0, it['at'] - self.first)
        if at >= len(self.places):
            return
        last = len(self.places) if after is None else after - self.first
        ss = self.places[at][0]
        es = self.places[at][1] if kind in (REFUSAL, OTHER) else self.places[last - 1][1]
        name = it.get('command', it.get('code', ''))
        device = it.get('name') or it.get('device') or ''
        page = '' if it.get('page') is None else ' page %s' % it['page']
        self.put_texts(ss, es, kind, self.texts(it, name, device, page))
        if 'number' in it and it['kind'] == 'read':
            value = ('%s %s' % (it['number'], it.get('unit', ''))).strip()
            self.put_texts(ss, es, VALUE, ['%s %s%s %s' % (device, name, page, value), value])
        elif it.get('bits'):
            self.put_texts(ss, es, BITS, ['%s%s: %s' % (device, page, ' '.join(it['bits'])),
                                          ' '.join(it['bits'])])

    def texts(self, it, name, device, page):
        """What is said of a packet, from long to short."""
        if it['kind'] == 'refusal':
            expected = ' or '.join(it['expected'])
            return ['%s %s: %s, expected %s' % (device, name, it['reason'], expected), it['reason'], '!']
        if it['kind'] == 'refused':
            return ['%s %s: %s' % (device, name, PLACES[it['refused']]), PLACES[it['refused']], 'N']
        if it['kind'] == 'alert':
            return ['alert of %s' % device if device else 'alert, and no device answered', 'alert', '!']
        if it['kind'] == 'other':
            return ['%s: not PMBus' % device, device]
        if 'value' in it:
            said = ('%s %s' % (it['number'], it.get('unit', ''))).strip()
            said += ' (VOUT_MODE assumed)' if 'mode' in it else ''
        elif 'ratio' in it:
            said = it['ratio'] + ' of VOUT_COMMAND'
        elif 'bits' in it or 'clears' in it:
            said = ' '.join(it.get('bits', it.get('clears', []))) or 'no bits'
        elif 'text' in it:
            said = '"%s"' % it['text']
        else:
            said = it.get('bytes', '%s, %s' % (it.get('sent', ''), it.get('reply', '')))
        verb = {'write': 'write ', 'read': '', 'call': 'call '}[it['kind']]
        return ['%s%s %s: %s%s' % (device, page, name, verb, said), '%s %s%s' % (name, verb, said), name]

    def put_texts(self, ss, es, kind, texts):
        self.put(ss, es, self.out, [kind, [' '.join(it.split()) for it in texts]])
