// ---- one packet: its events as a wire drawing, and what it means

const KIND_TITLES = {
    write: 'Write', read: 'Read', call: 'Process call', refused: 'NACKed', alert: 'Alert', other: 'Not PMBus', refusal: 'Protocol error', bad_token: 'No capture text',
};
const WHY_RAW = {
    page: 'the page is one that the device lacks, or all pages are selected and they differ', unknown: 'VOUT_MODE is not known here',
    relative: 'VOUT_MODE says that it is a factor and a VID code, which cannot be', vid: 'VOUT_MODE names VID, and the profile has no table for it',
    coefficients: 'VOUT_MODE names DIRECT, and the profile has no vout_direct', nan: 'an infinity, or no number', off: 'the VID code that is off', code: 'no VID code',
};
const LETTERS = { Start: 'START', Byte: 'a byte', Ack: 'ACK', Nack: 'NACK', Stop: 'STOP' };

class Packet {
    constructor(place, { step }) {
        this.step = step;
        this.number = make('h2', { text: 'Packet' });
        this.head = make('div', { class: 'panel-head' }, this.number, make('span', { class: 'gap' }),
            make('span', { class: 'group' },
                button(
                    '',
                    { title: 'The packet before (,)', 'aria-label': 'The packet before', onclick: () => step(-1) },
                    'left',
                ),
                button(
                    '',
                    {
                        title: 'The next packet (.)', 'aria-label': 'The next packet', onclick: () => step(1),
                    }, 'right',
                )));
        this.body = make('div', { class: 'packet', 'aria-live': 'polite', tabindex: '-1' });
        place.append(this.head, this.body);
        this.row = -1;
        new ResizeObserver(settled(() => this.found && this.fill(), 80)).observe(this.body);
        this.reset();
    }

    reset() {
        this.row = -1;
        this.found = null;
        this.number.textContent = 'Packet';
        this.body.replaceChildren(make(
            'p',
            { class: 'quiet', text: 'Choose a packet in the timeline or in the table.' },
        ));
    }

    async show(reading, row) {
        this.reading = reading;
        this.row = row;
        const found = await reading.ask('packet', { row });
        if (this.row !== row || this.reading !== reading || found === null || found.mistake) return;
        this.found = found;
        this.fill();
    }

    fill() {
        const { reading, row, found } = this;
        const { object } = found;
        this.number.textContent = `Packet ${grouped(row)}`;
        const says = saysOf(object, found.log);
        const title = object.command ?? (object.code ? `Command ${object.code}` : KIND_TITLES[object.kind]);
        const bad = object.kind === 'refusal' || object.kind === 'bad_token';
        const children = [
            make('p', { class: 'packet-title' }, make(
                'span',
                { class: `badge ${object.kind}`, text: KIND_TITLES[object.kind] },
            ),
                object.part ? make('span', { class: 'badge', text: `part ${object.part} of ${object.parts}` }) : null,
                make('strong', { text: title })),
            make('p', { class: `says${bad ? ' bad' : object.kind === 'refused' ? ' warn' : ''}`, text: says }),
        ];
        children.push(...this.wireOf(found));
        children.push(this.facts(object, row));
        children.push(make('details', { class: 'raw' }, make('summary', { text: 'As pmb json and pmb log have it' }),
            make('pre', { text: `${found.line}\n${found.log}` })));
        this.body.replaceChildren(...children);
        this.reading = reading;
    }

    wireOf({ object, around }) {
        const { events, target } = packetAround(around.text, around.place);
        if (events.length === 0) return [];
        const marked = object.kind === 'refusal' || object.kind === 'bad_token' ? target : -1;
        if (marked >= 0 && events[marked]) {
            events[marked].target = true;
            // (a wrong error code that was acknowledged is the byte before)
            if (events[marked].kind !== 'byte' && events[marked - 1]) events[marked - 1].target = true;
        }
        const explanation = explained(events, object);
        const width = Math.max(160, this.body.clientWidth - 48);
        const { picture, left } = wire(explanation, width, marked);
        return [
            make('div', { class: 'wire-box' }, picture),
            make('p', { class: 'legend' }, make('i', { class: 'host' }), 'the host drives the line', make(
                'i', { class: 'device' },
            ), 'the device',
                left > 0 ? make('b', { text: `${left} more events` }) : null),
        ];
    }

    facts(object, row) {
        const { reading } = this;
        const list = make('dl');
        const fact = (name, ...what) => {
            if (what[0] === undefined || what[0] === null || what[0] === '') return;
            list.append(make('dt', { text: name }), make('dd', {}, ...what));
        };
        if (object.time !== undefined) {
            const before = row > 0 ? reading.place(row) - reading.place(row - 1) : NaN;
            fact('time', make('span', { text: object.time.includes('T') ? object.time : `${object.time} s` }),
                row > 0 && reading.hasTimes ? make(
                    'small',
                    { text: before === 0 ? 'with the packet before' : `${lengthText(before)} after the packet before` },
                ) : null);
        }
        if (object.device !== undefined) fact(
            'device',
            object.device === null ? 'none' : make(
                'span',
                { text: `${object.device}${object.name ? ` ${object.name}` : ''}` },
            ),
        );
        if (object.code) fact(
            'command',
            make('span', { text: `${object.code}h ${object.command ?? 'the profile has no such command'}` }),
        );
        if (object.page !== undefined) {
            fact('page', make(
                'span',
                { text: object.page === null ? 'not known' : object.page === 'all' ? 'all' : String(object.page) },
            ),
                object.page_mode ? make('small', { text: 'assumed: the recording has not told PAGE yet' }) : null);
        }
        if (object.phase !== undefined) fact('phase', object.phase === null ? 'not known' : String(object.phase));
        if (object.value !== undefined) {
            fact('value', make('b', { text: withUnit(String(object.number), object.unit) }),
                object.value !== String(object.number) ? make('small', { text: `exactly ${object.value}` }) : null,
                object.mode ? make(
                    'small',
                    { text: 'by the VOUT_MODE of the profile: the recording has not told it' },
                ) : null);
        }
        if (object.ratio !== undefined) fact('factor', make('span', { text: `${object.ratio} of VOUT_COMMAND` }));
        if (object.raw !== undefined) fact('no value', WHY_RAW[object.raw] ?? object.raw);
        for (const [key, name] of [['bits', 'bits set'], ['clears', 'clears']]) {
            if (object[key] === undefined) continue;
            const code = parseInt(object.code, 16);
            fact(name, object[key].length === 0 ? 'none' : make('span', { class: 'chips' },
                ...object[key].map((bit) => make(
                    'span',
                    { class: `chip ${key === 'bits' ? chipClass(bit, code) : ''}`, text: bit },
                ))));
        }
        if (object.text !== undefined) fact('text', make('code', { text: object.text }));
        if (object.says !== undefined) fact('fields', make('span', { class: 'fields' }, ...fieldsOf(object.says)));
        if (object.refused) fact(
            'NACKed',
            object.refused === 'address' ? 'the address: nothing answered' : object.refused === 'code' ? 'the command code' : object.refused,
        );
        if (object.reason) {
            fact(
                'reason',
                make('b', { text: REASONS[object.reason] ?? object.reason }), make('small', { text: object.reason }),
            );
            const got = object.got === null ? 'the end of the capture' : LETTERS[object.got] ?? `${object.got}h`;
            fact('came', got);
            fact('expected', object.expected.map((it) => LETTERS[it] ?? it).join(' or '));
        }
        if (object.word !== undefined) fact('word', make('code', { text: object.word }));
        const data = object.bytes ?? object.sent;
        if (data) fact(object.kind === 'call' ? 'sent' : 'bytes', make('code', { text: spaced(data) }));
        if (object.reply) fact('reply', make('code', { text: spaced(object.reply) }));
        if (object.byte) fact('byte', make('code', { text: object.byte }));
        if (object.pec === true) fact('error code', make('span', { class: 'good', text: 'right' }));
        else if (object.pec === false) fact('error code', make('span', { class: 'muted', text: 'none' }));
        else if (object.pec) fact(
            'error code',
            make(
                'span',
                {
                    class: object.pec === 'right' ? 'good' : 'bad',
                    text: object.right_pec ? `${object.pec}: ${object.right_pec} is right` : object.pec,
                },
            ),
        );
        else if (object.right_pec) fact(
            'error code',
            make('span', { class: 'bad', text: `wrong: ${object.right_pec} is right` }),
        );
        fact(
            'in the capture',
            make('span', { text: `line ${grouped(object.line)}, column ${grouped(object.column)}` }),
            make('small', { text: `event ${grouped(object.at)}` }),
        );
        return list;
    }
}

const spaced = (digits) => digits.replace(/../g, '$& ').trimEnd();

function chipClass(bit, code) {
    if (bit === 'BUSY' || bit === 'OFF' || bit === 'POWER_GOOD_N') return 'note';
    if (bit.endsWith('_WARN') || bit.endsWith('_OVERRIDE')) return 'warn';
    return code === 0x79 || code === 0x78 ? 'warn' : 'bad';
}

// The fields of data, a line each.
function fieldsOf(says) {
    return Object.entries(says).map(([name, value]) => make('span', { class: 'field' }, make(
        'span',
        { class: 'muted', text: name.replace(/_/g, ' ') },
    ),
        make(
            'span',
            { text: Array.isArray(value) ? value.map((it) => (typeof it === 'object' ? JSON.stringify(it) : it)).join(', ') || 'none' : typeof value === 'object' && value !== null ? JSON.stringify(value) : String(value) },
        )));
}
