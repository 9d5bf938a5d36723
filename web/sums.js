// ---- sums: what `pmb stats` says of each device

class Sums {
    constructor(place, { choose }) {
        this.choose = choose;
        this.place = make('div', { class: 'sums' });
        this.order = { column: '', down: false };
        place.append(this.place);
        this.reset();
    }

    reset() {
        this.objects = null;
        this.signature = '';
        this.place.replaceChildren(make('p', { class: 'quiet', text: 'Open a recording, and its sums stand here.' }));
    }

    // Takes what `pmb stats --json` wrote.
    show(reading, text) {
        this.reading = reading;
        this.objects = text.split('\n').filter((line) => line !== '').map((line) => JSON.parse(line));
        this.fill();
    }

    fill() {
        const devices = this.objects.filter((it) => it.kind === 'device');
        const end = this.objects.find((it) => it.kind === 'end');
        this.place.replaceChildren(
            make('div', { class: 'panel-head' }, make('h2', { text: 'Sums' }), make(
                'span',
                { class: 'shown', text: 'what pmb stats writes' },
            ), make('span', { class: 'gap' }),
                button(
                    'CSV',
                    {
                        title: 'Save the numbers as a table',
                        onclick: () => save(new Blob([this.csv()], { type: 'text/csv' }), 'sums.csv'),
                    },
                ),
                button(
                    'JSON',
                    {
                        title: 'Save what pmb stats --json wrote',
                        onclick: () => save(
                            new Blob([`${this.objects.map((it) => JSON.stringify(it)).join('\n')}\n`]), 'stats.jsonl',
                        ),
                    },
                )),
            ...devices.map((device) => this.deviceCard(device)),
            end ? make('section', { class: 'card total' }, make('h3', { text: 'In all' }), this.counts(end)) : null);
    }

    counts(object) {
        const list = make('p', { class: 'tallies' });
        const tally = (name, value, kind = '') => {
            if (value === undefined) return;
            list.append(make(
                'span', { class: `tally ${kind}` },
                make('b', { text: typeof value === 'number' ? grouped(value) : value }), make('span', { text: name }),
            ));
        };
        tally('packets', object.packets);
        tally('writes', object.writes);
        tally('reads', object.reads);
        tally('calls', object.calls);
        tally('alerts', object.alerts, 'warn');
        for (const [name, value] of Object.entries(object.nacks ?? {})) tally(
            `NACKed at ${name === 'address' ? 'the address' : name === 'code' ? 'the code' : name === 'byte' ? 'a byte' : 'the read address'}`,
            value, 'warn',
        );
        for (const [name, value] of Object.entries(object.refusals ?? {})) tally(name, value, 'bad');
        tally('not PMBus', object.others);
        tally('bad words', object.bad_tokens, 'bad');
        tally('first', object.first);
        tally('last', object.last);
        return list;
    }

    deviceCard(device) {
        const address = parseInt(device.device, 16);
        const pages = device.pages ?? [];
        const bits = pages.flatMap((page) => (page.bits ?? []).map((bit) => ({ page: page.page, ...bit })));
        const numbers = pages.flatMap((page) => (page.numbers ?? []).map((number) => ({ page: page.page, ...number })));
        const phases = [...bits, ...numbers].some((it) => it.phase !== undefined);
        const card = make('section', { class: 'card' },
            make(
                'h3', {}, make('code', { text: device.device }),
                make('span', { text: device.name ?? '' }),
            ), this.counts(device));
        const selected = (value, has) => (!has ? '' : value === null ? '?' : value === 'all' ? '*' : String(value));
        if (bits.length > 0) {
            card.append(this.table('bits', [
                'page', ...(phases ? ['phase'] : []), 'register', 'bit', 'reads set', 'first', 'last', 'gone',
            ],
                bits.map((bit) => ({
                    cells: [
                        selected(bit.page, bit.page !== undefined),
                        ...(phases ? [selected(bit.phase, bit.phase !== undefined)] : []), bit.command ?? bit.code,
                        bit.bit, grouped(bit.count), bit.first ?? '', bit.last ?? '', bit.gone ?? 'not seen',
                    ],
                    keys: [
                        bit.page, ...(phases ? [bit.phase] : []), bit.command, bit.bit, bit.count, bit.first,
                        bit.last, bit.gone,
                    ],
                    kind: chipClass(bit.bit, parseInt(bit.code, 16)),
                    go: () => this.goToBit(address, bit),
                })), [3]));
        }
        if (numbers.length > 0) {
            card.append(this.table('numbers', [
                'page', ...(phases ? ['phase'] : []), 'command', 'count', 'assumed', 'least', 'mean', 'greatest',
                'last', 'unit', '',
            ],
                numbers.map((number) => ({
                    cells: [selected(number.page, number.page !== undefined), ...(phases ? [selected(number.phase, number.phase !== undefined)] : []), number.command ?? number.code, grouped(number.count),
                        number.assumed ? grouped(number.assumed) : '', String(number.least), number.mean === undefined ? '' : String(number.mean), String(number.greatest), String(number.last), unitText(number.unit ?? ''), rangeBar(number)],
                    keys: [
                        number.page, ...(phases ? [number.phase] : []), number.command, number.count, number.assumed,
                        number.least, number.mean, number.greatest, number.last, number.unit, null,
                    ],
                    go: () => this.goToNumber(address, number),
                })), []));
        }
        return card;
    }

    // A table whose columns sort; each row goes to its first packet.
    table(name, heads, rows, marked) {
        const body = make('tbody');
        const fill = (column, down) => {
            const sorted = column < 0 ? rows : [...rows].sort((one, two) => {
                const [a, b] = [one.keys[column], two.keys[column]];
                const order = typeof a === 'number' && typeof b === 'number' ? a - b : String(a ?? '').localeCompare(
                    String(b ?? ''), 'en', { numeric: true },
                );
                return down ? -order : order;
            });
            body.replaceChildren(...sorted.map((row) => {
                const made = make('tr', {}, ...row.cells.map((cell, i) => (cell instanceof Node ? make(
                    'td', { class: 'bar' }, cell,
                )
                    : i === heads.indexOf('bit') && marked.length > 0 ? make(
                        'td', {},
                        make(
                            'button',
                            {
                                type: 'button', class: `chip ${row.kind}`, text: cell,
                                title: 'Go to the first read that shows it', onclick: row.go,
                            },
                        ),
                    )
                        : i === heads.indexOf('command') ? make(
                            'td', {},
                            make(
                                'button',
                                {
                                    type: 'button', class: 'plain', text: cell, title: 'Go to its first packet',
                                    onclick: row.go,
                                },
                            ),
                        )
                            : make('td', { class: numeric(heads[i]) ? 'number' : '', text: cell }))));
                return made;
            }));
        };
        let last = -1;
        let down = false;
        const header = make('tr', {}, ...heads.map((text, i) => {
            if (text === '') return make('th', { scope: 'col' });
            const cell = make('th', { scope: 'col', class: numeric(text) ? 'number' : '', 'aria-sort': 'none' });
            cell.append(make('button', {
                type: 'button', text, onclick: () => {
                    down = last === i ? !down : false;
                    last = i;
                    for (const it of cell.parentNode.children) if (it.hasAttribute('aria-sort')) it.setAttribute('aria-sort', 'none');
                    cell.setAttribute('aria-sort', down ? 'descending' : 'ascending');
                    fill(i, down);
                },
            }));
            return cell;
        }));
        fill(-1, false);
        return make('div', { class: 'scroll-x' }, make('table', { class: name }, make('thead', {}, header), body));
    }

    goToBit(device, bit) {
        const code = parseInt(bit.code, 16);
        const episode = this.reading.summary.episodes.find(
            (it) => it.device === device &&
            it.code === code &&
            it.bit === bit.bit &&
            samePage(it.page, bit.page)
        );
        if (episode) this.choose(episode.first);
    }

    goToNumber(device, number) {
        const code = parseInt(number.code, 16);
        const series = this.reading.summary.series.find((it) => it.device === device && it.code === code && samePage(
            it.page, number.page,
        ));
        const track = series && this.reading.tracks.get(series.id);
        if (track) this.choose(track.rows.items[0]);
    }

    csv() {
        const lines = ['device,name,page,command,count,assumed,least,mean,greatest,last,unit'];
        for (const device of this.objects.filter((it) => it.kind === 'device')) {
            for (const page of device.pages ?? []) {
                for (const number of page.numbers ?? []) {
                    lines.push([
                        device.device,
                        `"${(device.name ?? '').replace(/"/g, '""')}"`, page.page ?? '', number.command ?? number.code, number.count, number.assumed ?? 0, number.least, number.mean ?? '', number.greatest, number.last, number.unit ?? '',
                    ].join());
                }
            }
        }
        return `${lines.join('\n')}\n`;
    }
}

// Whether a column has numbers or times, which stand at the right.
const numeric = (head) => [
    'page', 'phase', 'count', 'reads set', 'assumed', 'least', 'mean', 'greatest', 'last', 'first', 'gone',
].includes(head);

const samePage = (one, two) => one === (two === null ? '?' : two);

// Where the mean and the last value lie between the least and the greatest.
function rangeBar({ least, mean, greatest, last }) {
    const wide = 76;
    const at = (value) => (greatest > least ? 3 + ((value - least) / (greatest - least)) * (wide - 6) : wide / 2);
    const bar = drawn('svg', {
        class: 'range', width: wide, height: 12, viewBox: `0 0 ${wide} 12`, 'aria-hidden': 'true',
    },
        drawn('path', { d: `M3 6H${wide - 3}`, class: 'rail' }));
    if (mean !== undefined) bar.append(drawn('path', { d: `M${at(mean)} 2.5V9.5`, class: 'mean' }));
    bar.append(drawn('circle', { cx: at(last), cy: 6, r: 2.6, class: 'last' }));
    return bar;
}
