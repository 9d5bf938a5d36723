// ---- try: requests on simulated devices, numbers and their codes, packets of transactions

const FORMATS = [
    ['linear11', 'LINEAR11', []], [
        'ulinear16', 'ULINEAR16 (VOUT)', [['exponent', '-12']],
    ], ['slinear16', 'SLINEAR16', [['exponent', '-12']]],
    ['direct', 'DIRECT', [['m', '3'], ['b', '2'], ['R', '1']]], [
        'udirect', 'DIRECT, unsigned', [['m', '3'], ['b', '2'], ['R', '1']],
    ], ['half', 'half precision', []],
    ['vout', 'by VOUT_MODE', [['VOUT_MODE', '17']]], ['vid', 'VID', [['table', 'vr12']]],
];
const REQUESTS = 'write 58 00 01\nset 58 21 3.3\nget 58 21\nread 58 79 pec\n# a page that the device lacks\nwrite 58 00 02\nread 58 7e\n';

class Try {
    constructor(place, { profile }) {
        this.profile = profile;
        this.build(place);
    }

    build(place) {
        const area = (label, text, rows, changed) => make(
            'textarea',
            {
                class: 'code', 'aria-label': label, spellcheck: 'false', autocomplete: 'off', autocapitalize: 'off',
                rows, oninput: changed,
            },
        );
        // requests
        const again = settled(() => this.run(), 250);
        this.requests = area('Requests, one a line', '', 12, again);
        this.requests.value = REQUESTS;
        this.results = make(
            'div',
            { class: 'results', role: 'log', 'aria-label': 'Packets and results', tabindex: '0' },
        );
        this.chosen = 'sample';
        this.whose = make('select', { 'aria-label': 'Whose devices', onchange: () => this.chooseDevices() });
        const help = make('p', { class: 'help' });
        help.append(
            'write ADDR CODE BYTES · read ADDR CODE · call ADDR CODE BYTES · set ADDR CODE QUANTITY · get ADDR CODE, with ',
            make('code', { text: 'pec' }), ' at the end for an error code',
        );
        // numbers
        const convert = settled(() => this.convert(), 120);
        this.format = make(
            'select',
            { 'aria-label': 'Format', onchange: () => this.formatChanged() },
            ...FORMATS.map(([name, text]) => make('option', { value: name, text }))
        );
        this.words = make('span', { class: 'words' });
        this.quantity = make(
            'input',
            {
                type: 'text', value: '12', 'aria-label': 'Quantity', spellcheck: 'false', autocomplete: 'off',
                oninput: () => { this.side = 'quantity'; convert(); },
            },
        );
        this.code = make(
            'input',
            {
                type: 'text',
                'aria-label': 'Code, four hexadecimal digits', spellcheck: 'false', autocomplete: 'off',
                maxlength: '6',
                oninput: () => { this.side = 'code'; convert(); },
            },
        );
        this.exact = make('output', { class: 'exact', 'aria-live': 'polite' });
        this.side = 'quantity';
        // transactions
        const build = settled(() => this.packet(), 150);
        this.transaction = make(
            'input',
            {
                type: 'text', class: 'code', value: 'write 58 21 00 18 pec', 'aria-label': 'A transaction',
                spellcheck: 'false', autocomplete: 'off', oninput: build,
            },
        );
        this.drawing = make('div', { class: 'wire-box' });
        this.spelled = make('pre', { class: 'spelled' });
        place.append(
            make('section', { class: 'card wide' },
                make('div', { class: 'panel-head' }, make(
                    'h2',
                    { text: 'Requests on simulated devices' },
                ), this.whose, make('span', { class: 'gap' }),
                    button(
                        'Run',
                        { class: 'main', title: 'Run them (Ctrl+Enter)', onclick: () => this.run() }, 'play',
                    )),
                make('div', { class: 'split' }, this.requests, this.results), help),
            make('section', { class: 'card' }, make(
                'div', { class: 'panel-head' },
                make('h2', { text: 'Numbers and codes' }),
            ),
                make(
                    'div', { class: 'form' },
                    make('label', {}, make('span', { text: 'format' }), this.format), this.words,
                ),
                make('div', { class: 'pair' }, make(
                    'label', {}, make('span', { text: 'quantity' }), this.quantity,
                ), make('span', { class: 'arrows', 'aria-hidden': 'true', text: '⇄' }),
                    make('label', {}, make('span', { text: 'code' }), this.code)), this.exact),
            make('section', { class: 'card' }, make(
                'div', { class: 'panel-head' },
                make('h2', { text: 'The packet of a transaction' }),
            ),
                make('label', { class: 'form' }, this.transaction), this.drawing, this.spelled));
        this.requests.addEventListener('keydown', (event) => {
            if (event.key === 'Enter' && (event.ctrlKey || event.metaKey)) this.run();
        });
        this.formatChanged(false);
    }

    // Does all of it anew, as under another profile.
    show() {
        const own = this.profile();
        const choices = [
            ['sample', 'the sample profile'], ['board', 'the board of the power-up'],
            ...(own ? [['page', own.name]] : [])
        ];
        if (!own && this.chosen === 'page') this.chosen = 'sample';
        this.whose.replaceChildren(...choices.map(([value, text]) => make('option', { value, text, selected: value === this.chosen })));
        this.whose.value = this.chosen;
        this.again();
    }

    again() {
        this.run();
        this.convert();
        this.packet();
    }

    // Takes other devices, and requests that suit them where the old ones are those of others.
    async chooseDevices() {
        const given = this.requests.value;
        this.chosen = this.whose.value;
        if (given === this.given || given === REQUESTS) {
            this.given = this.chosen === 'sample' ? REQUESTS : this.chosen === 'board' ? DATA.requests : await this.requestsFor(this.devices.text);
            this.requests.value = this.given;
            const first = /^address = 0x([0-9a-fA-F]{2})/m.exec(this.devices.text);
            if (first) this.transaction.value = `write ${first[1].toLowerCase()} 21 00 18`;
        }
        this.again();
    }

    // A few requests to the devices of a profile.
    async requestsFor(profile) {
        const { text } = await program(['profile'], [profile]);
        const addresses = [...text.matchAll(/^address +([0-9a-f]{2}),/gm)].map(([, address]) => address);
        return addresses.slice(0, 8).map((address) => `# ${address}: STATUS_WORD, then VOUT_COMMAND to 1.2 V and back\nread ${address} 79\nset ${address} 21 1.2\nget ${address} 21\n`).join('');
    }

    // The profile of the devices that are chosen.
    get devices() {
        if (this.chosen === 'page') return this.profile();
        return this.chosen === 'board' ? { text: DATA.sessions.power_up.profile } : { text: DATA.sample };
    }

    async run() {
        const turn = (this.turn = (this.turn ?? 0) + 1);
        const { text: profile } = this.devices;
        const { text, error, status } = await program(['run'], [`${profile}\n%%\n`, this.requests.value]);
        if (turn !== this.turn) return;
        this.output = text;
        this.status = status;
        const lines = text.split('\n');
        if (lines[lines.length - 1] === '') lines.pop();
        this.results.replaceChildren(
            ...lines.slice(0, 2000).map((line) => this.result(line)),
            ...(error ? [make('p', { class: 'result bad', text: error })] : [])
        );
    }

    result(line) {
        if (!line.startsWith('#')) {
            const made = make('p', { class: 'result packet-line' });
            for (const { kind, driver, word, label } of explained(eventsOf(line), null).events) made.append(
                make(
                    'span',
                    {
                        class: `token ${kind === 'N' && driver === 'device' ? 'nack' : driver ?? ''}`,
                        text: label === 'Sr' ? 'S' : word,
                    },
                ),
                ' ',
            );
            return made;
        }
        const text = line.slice(1).trim();
        const bad = /^line [0-9]+: /.test(text);
        const refused = text.startsWith('refused');
        return make(
            'p',
            { class: `result ${bad ? 'bad' : refused ? 'warn' : 'answer'}`, text: bad ? text : `→ ${text}` },
        );
    }

    formatChanged(again = true) {
        const [, , words] = FORMATS.find(([name]) => name === this.format.value);
        const tables = ['vr11', 'vr12', 'vr13', 'imvp9', 'amd625mv', 'nvidia195mv'];
        this.words.replaceChildren(...words.map(([name, value]) => make('label', {}, make('span', { text: name }),
            name === 'table' ? make(
                'select', { onchange: () => this.convert() },
                ...tables.map((it) => make('option', { value: it, text: it, selected: it === value }))
            )
                : make(
                    'input',
                    {
                        type: 'text', value, size: '5', spellcheck: 'false', autocomplete: 'off',
                        oninput: () => this.convert(),
                    },
                ))));
        if (again) this.convert();
    }

    get formatText() {
        const words = [...this.words.querySelectorAll('input, select')].map((it) => it.value.trim());
        return words.length === 0 ? this.format.value : `${this.format.value}:${words.join()}`;
    }

    async convert() {
        const turn = (this.converting = (this.converting ?? 0) + 1);
        const format = this.formatText;
        const tell = (text, bad = false) => {
            this.exact.textContent = text;
            this.exact.classList.toggle('bad', bad);
        };
        let code = this.code.value.trim();
        if (this.side === 'quantity') {
            const { text, error } = await program(['encode', format], [`${this.quantity.value.trim()}\n`]);
            if (turn !== this.converting) return;
            code = text.trim();
            if (error || code.startsWith('!')) {
                this.code.value = '';
                tell(explainFault(error || code), true);
                return;
            }
            this.code.value = code;
        }
        const { text, error } = await program(['decode', format], [`${code}\n`]);
        if (turn !== this.converting) return;
        const exact = text.trim();
        if (error || exact.startsWith('!')) {
            if (this.side === 'code') this.quantity.value = '';
            tell(explainFault(error || exact), true);
            return;
        }
        if (this.side === 'code') this.quantity.value = exact;
        const word = parseInt(code, 16);
        tell(`${code}h is exactly ${exact}${exact.includes('/') ? ` ≈ ${shortNumber(fraction(exact), 9)}` : ''}, and ${hexByte(word & 255)} ${hexByte(word >> 8)} on the wire`);
    }

    async packet() {
        const turn = (this.building = (this.building ?? 0) + 1);
        const { text: profile } = this.devices;
        const { text, error } = await program(['build'], [`${profile}\n%%\n`, `${this.transaction.value}\n`]);
        if (turn !== this.building) return;
        const line = text.trimEnd();
        const bad = error !== '' || line.startsWith('#');
        this.spelled.textContent = error || line.replace(/^# line 1: /, '');
        this.spelled.classList.toggle('bad', bad);
        if (bad || line === '') {
            this.drawing.replaceChildren();
            return;
        }
        const shown = await program(['json'], [`${profile}\n%%\n`, text]);
        if (turn !== this.building) return;
        const object = shown.text ? JSON.parse(shown.text.split('\n')[0]) : null;
        this.drawing.replaceChildren(wire(
            explained(eventsOf(line), object?.kind === 'device' ? null : object),
            Math.max(200, (this.drawing.clientWidth || 420) - 22),
        ).picture);
    }
}

const FAULTS = {
    BadDigit: 'This is no quantity.', Empty: 'A quantity is missing.', Below: 'Below the least value of the format.', Above: 'Above the greatest value of the format.', ZeroDenominator: 'A quantity over 0.',
    TooLarge: 'Too large for a quantity.', BadCode: 'A code has four hexadecimal digits.', NotANumber: 'An infinity, or no number.', Off: 'The code that is off.', NoCode: 'The table has no voltage for this code.',
    BadFormat: 'This names no format.', BadExponent: 'The exponent is from -16 to 15.', ZeroSlope: 'm must not be 0.', BadScale: 'R is from -9 to 9.', TooLong: 'That is too long.',
};

const explainFault = (text) => FAULTS[text.trim().replace(/^(! |pmb: format: )/, '')] ?? text.trim();

function fraction(text) {
    const [over, under] = text.split('/').map(Number);
    return over / (under ?? 1);
}
