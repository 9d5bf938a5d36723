// ---- what stands around the views: the first page, help, the line between timeline and table

// What is shown while nothing is open. `acts` says what its buttons do: `choose` files, read what was
// `pasted`, open an `example` or an example `recording`.
function welcomePage(acts) {
    const example = (text, note, start) => make(
        'button',
        { type: 'button', class: 'example', onclick: start }, make('b', { text }), make('span', { text: note }),
    );
    const paste = make(
        'textarea',
        {
            class: 'code', rows: '3',
            placeholder: 'S b0 A 88 A S b1 A 00 A d3 N P',
            'aria-label': 'Paste a recording or a capture', spellcheck: 'false',
        },
    );
    const sources = make('p', { class: 'sources' });
    sources.append('sigrok and PulseView · Saleae Logic 2 · Total Phase Data Center · Linux trace, trace-cmd and perf · capture text');
    return make('div', { class: 'welcome' },
        make('div', { class: 'welcome-main' },
            make('h2', { text: 'Drop a recording, see the bus' }),
            make(
                'p',
                {
                    class: 'lead',
                    text: 'Where did the voltage dip, when did the fault come, which device does not answer: PMBus traffic as a timeline, as values, and packet by packet.',
                },
            ),
            make('div', { class: 'dropzone' }, sign('open'),
                make(
                    'p', {}, make('b', { text: 'Drop files here' }), make('span', { text: ' or ' }),
                    button('choose them', { class: 'main', onclick: acts.choose }),
                ), sources),
            make(
                'div', { class: 'paste' }, paste,
                button('Read this', { onclick: () => acts.pasted(paste.value) }),
            )),
        make('div', { class: 'welcome-side' },
            make('h3', { text: 'Examples' }),
            example(
                '45 seconds on a bench',
                'Two converters and a supply: a short, a fault, heat, a damaged packet',
                () => acts.example('bench'),
            ),
            example(
                'A power-up',
                'Limits are set, both outputs measured, one is shorted', () => acts.example('power_up'),
            ),
            example(
                'An undervoltage',
                'A second in which one output is too low', () => acts.example('undervoltage'),
            ),
            example('sigrok', 'What sigrok-cli wrote of wave forms', () => acts.recording('sigrok.txt')),
            example(
                'Linux',
                'A trace of i2cget, i2cset and i2ctransfer',
                () => acts.recording('kernel_i2c_tools.txt'),
            ),
            make(
                'p', { class: 'promise' },
                make('b', { text: 'It stays on this machine.' }),
                make(
                    'span',
                    { text: ' The page is one file, and its policy lets it load and send nothing. The program that reads the recording is pmb itself, proved and compiled for browsers.' },
                ),
            )));
}

// The keys, and what the pointer does.
function helpDialog() {
    const keys = [
        ['O', 'open files'],
        ['1 2 3 4', 'the views'],
        ['/', 'filter the table by text'],
        ['. ,', 'the next packet, the one before'],
        ['] [', 'the next problem, the one before'],
        ['T', 'to the timeline'],
        ['G', 'to the table'],
        ['N', 'to what needs a look'],
        ['← →', 'in the timeline: move; with Shift by half of it'],
        ['+ − 0', 'in the timeline: zoom, show all'],
        ['↑ ↓ Page Home End', 'in the table: from row to row'],
        ['Esc', 'clear the marked part, close this'],
    ];
    const list = make('dl', { class: 'keys' });
    for (const [key, what] of keys) list.append(
        make('dt', {}, ...key.split(' ').map((it) => make('kbd', { text: it }))), make('dd', { text: what }),
    );
    const dialog = make('dialog', { class: 'help', 'aria-label': 'Help' },
        make(
            'div', { class: 'panel-head' },
            make('h2', { text: 'Keys and pointer' }), make('span', { class: 'gap' }),
            button('', { 'aria-label': 'Close', onclick: () => dialog.close() }, 'close'),
        ),
        list,
        make(
            'p',
            { text: 'Wheel: zoom at the pointer; with Shift: move. Drag: move; with Shift, or in the ruler: mark a part, and read its length, its packets, and what each value was in it. Double click: zoom in. Drag in the overview: choose what is shown. On a touch screen: one finger moves, two zoom.' },
        ),
        make(
            'p',
            { text: 'A status bit is solid up to the last read that showed it, and pale up to the read that no longer did. A hollow dot is a voltage that rests on an assumed VOUT_MODE. The width of a packet is an estimate: its START is known, its STOP is not.' },
        ),
        make(
            'p', {},
            make('span', { text: 'Everything is read by the program pmb inside this page, as its commands ' }),
            make('code', { text: 'import, scan, json, log, stats, run, encode, decode, build' }),
            make('span', { text: ' do. Nothing is loaded or sent.' }),
        ));
    dialog.addEventListener('click', (event) => { if (event.target === dialog) dialog.close(); });
    return dialog;
}

// Lets the pointer and the arrow keys move the line between timeline and table, which share `left`.
function splits(left, splitter) {
    let share = 0;
    const set = (wanted) => {
        share = Math.max(15, Math.min(85, wanted));
        left.style.setProperty('--split', `${share}fr`);
        left.style.setProperty('--rest', `${100 - share}fr`);
        splitter.setAttribute('aria-valuenow', Math.round(share));
    };
    set(64);
    splitter.addEventListener('pointerdown', (event) => {
        splitter.setPointerCapture(event.pointerId);
        const move = (it) => {
            const box = left.getBoundingClientRect();
            set(((it.clientY - box.top) / box.height) * 100);
        };
        splitter.addEventListener('pointermove', move);
        splitter.addEventListener(
            'pointerup',
            () => splitter.removeEventListener('pointermove', move), { once: true },
        );
    });
    splitter.addEventListener('keydown', (event) => {
        const by = { ArrowUp: -4, ArrowDown: 4 }[event.key];
        if (by) {
            set(share + by);
            event.preventDefault();
        }
    });
}
