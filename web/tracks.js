// ---- the timeline's rows, their labels, and the drawing of values

const LIMITS = {
    READ_VOUT: [
        'VOUT_OV_FAULT_LIMIT', 'VOUT_OV_WARN_LIMIT', 'VOUT_UV_WARN_LIMIT', 'VOUT_UV_FAULT_LIMIT', 'VOUT_COMMAND',
    ],
    READ_IOUT: ['IOUT_OC_FAULT_LIMIT', 'IOUT_OC_WARN_LIMIT', 'IOUT_UC_FAULT_LIMIT'],
    READ_VIN: [
        'VIN_OV_FAULT_LIMIT', 'VIN_OV_WARN_LIMIT', 'VIN_UV_WARN_LIMIT', 'VIN_UV_FAULT_LIMIT', 'VIN_ON', 'VIN_OFF',
    ],
    READ_IIN: ['IIN_OC_FAULT_LIMIT', 'IIN_OC_WARN_LIMIT'],
    READ_POUT: ['POUT_OP_FAULT_LIMIT', 'POUT_OP_WARN_LIMIT'],
    READ_PIN: ['PIN_OP_WARN_LIMIT'],
    READ_TEMPERATURE_1: ['OT_FAULT_LIMIT', 'OT_WARN_LIMIT', 'UT_WARN_LIMIT', 'UT_FAULT_LIMIT'],
    READ_TEMPERATURE_2: ['OT_FAULT_LIMIT', 'OT_WARN_LIMIT', 'UT_WARN_LIMIT', 'UT_FAULT_LIMIT'],
    READ_TEMPERATURE_3: ['OT_FAULT_LIMIT', 'OT_WARN_LIMIT', 'UT_WARN_LIMIT', 'UT_FAULT_LIMIT'],
};
const QUANTITIES = {
    V: 'Voltage', mV: 'Voltage', A: 'Current', mA: 'Current', degC: 'Temperature', W: 'Power', mW: 'Power',
    rpm: 'Fan speed', kHz: 'Frequency', '%': 'Ratio', '': 'Numbers without a unit',
};
const UNIT_ORDER = ['V', 'mV', 'A', 'mA', 'degC', 'W', 'mW', 'rpm', 'kHz', '%'];
const HEIGHTS = { group: 24, lane: 28, bit: 17, value: 42, limits: 78, unit: 132 };
const TOP = 54; // the overview and the ruler
const OVERVIEW = 30;
const HUES = 8;

// Whether a number is one that a device measures, and no limit or setting.
const isMeasured = (series) => /^READ_/.test(series.command) || (
    !series.written &&
    !/LIMIT|COMMAND|MARGIN|TRIM|DELAY|RISE|FALL|_ON$|_OFF$|MAX|MIN|SCALE|CAL_|DROOP|RATE|SWITCH|OFFSET/.test(series.command)
);

// Steps between ticks: 1, 2 or 5 times a power of ten.
function tickStep(span, room) {
    const least = span / Math.max(1, room);
    const power = 10 ** Math.floor(Math.log10(least));
    for (const factor of [1, 2, 5, 10]) if (power * factor >= least) return power * factor;
    return power * 10;
}

// What a timeline shows, row by row, and how its values are drawn.
class Tracks {
    layout() {
        const { reading } = this;
        if (!reading) return;
        const rows = [];
        let y = 0;
        const add = (row) => {
            row.y = y;
            row.height = row.height ?? HEIGHTS[row.type];
            y += row.height;
            rows.push(row);
        };
        const group = (key, title, note, fill) => {
            add({ type: 'group', key, title, note });
            if (!this.folded.has(key)) fill();
        };
        const lanes = [...reading.lanes.values()].sort((one, two) => one.device - two.device);
        if (lanes.length > 0) group(
            'lanes', 'Packets', '',
            () => lanes.forEach((lane) => add({ type: 'lane', lane, key: `lane ${lane.device}` })),
        );
        this.bits = bitsOf(reading);
        const order = { fault: 0, summary: 1, warning: 2, state: 3 };
        const bits = [...this.bits].sort(
            (one, two) => order[one.kind] - order[two.kind] ||
            one.first - two.first
        ).slice(0, 300);
        if (bits.length > 0) group(
            'bits', 'Status bits', 'from set to gone',
            () => bits.forEach((bit) => add({ type: 'bit', bit, key: `bit ${bit.key}` })),
        );
        this.values(add, group);
        this.rows = rows;
        this.height = y + 6;
        this.body.style.height = `${this.height}px`;
        this.label();
        this.draw();
    }

    values(add, group) {
        const { reading, options } = this;
        const byId = new Map(reading.summary.series.map((series) => [series.id, series]));
        this.tracks = [];
        let hue = 0;
        for (const series of [...byId.values()].sort((one, two) => one.device - two.device || comparePages(one, two) || one.code - two.code)) {
            const track = reading.tracks.get(series.id);
            if (!track || track.values.length === 0) continue;
            const measured = isMeasured(series);
            if (!measured && !options.settings) continue;
            this.tracks.push({ ...series, track, measured, limits: this.limitsOf(series, byId) });
        }
        const units = [...new Set(this.tracks.map((it) => it.unit))].sort(
            (one, two) => place(one) - place(two) ||
            (one < two ? -1 : 1)
        );
        function place(unit) {
            const found = UNIT_ORDER.indexOf(unit);
            return found < 0 ? 99 : found;
        }
        for (const unit of units) {
            const of = this.tracks.filter((it) => it.unit === unit);
            of.forEach((it, i) => {
                it.hue = options.units ? i % HUES : hue++ % HUES;
            });
            const title = QUANTITIES[unit] ?? 'Numbers';
            group(`unit ${unit}`, title, unitText(unit), () => {
                if (options.units) add({
                    type: 'unit', tracks: of, unit, key: `plot ${unit}`,
                    height: Math.max(HEIGHTS.unit, 24 + of.length * 15),
                });
                else of.forEach((it) => add({ type: 'value', value: it, key: `value ${it.id}`, height: options.limits && it.limits.length > 0 ? HEIGHTS.limits : HEIGHTS.value }));
            });
        }
    }

    // The limits that the recording has for a measured number.
    limitsOf(series, byId) {
        const wanted = LIMITS[series.command];
        if (wanted === undefined) return [];
        const found = [];
        for (const other of byId.values()) {
            if (other.device === series.device && other.page === series.page && wanted.includes(other.command)) {
                const track = this.reading.tracks.get(other.id);
                if (track?.values.length > 0) found.push({ command: other.command, track });
            }
        }
        return found;
    }

    // Makes the labels anew where rows changed; else only their places.
    label() {
        const signature = `${this.narrow} ${this.left} ${this.rows.map((row) => `${row.key}${row.y}`).join()} ${[...this.reading.names].join()}`;
        if (signature === this.signature) return;
        this.signature = signature;
        this.labels.style.width = `${this.left}px`;
        this.outs = new Map();
        const focused = document.activeElement?.dataset?.fold;
        this.labels.replaceChildren(...this.rows.map((row) => {
            const made = this.labelOf(row);
            made.style.top = `${row.y}px`;
            made.style.height = `${row.height}px`;
            return made;
        }));
        if (focused) [...this.labels.querySelectorAll('[data-fold]')].find((it) => it.dataset.fold === focused)?.focus();
    }

    labelOf(row) {
        const { reading } = this;
        if (row.type === 'group') {
            const folded = this.folded.has(row.key);
            return make('button', {
                type: 'button', class: 'label group-label', 'aria-expanded': !folded, 'data-fold': row.key,
                onclick: () => {
                    if (folded) this.folded.delete(row.key);
                    else this.folded.add(row.key);
                    this.layout();
                },
            }, sign(folded ? 'right' : 'down'), make('b', { text: row.title }), make('span', { text: row.note }));
        }
        if (row.type === 'lane') {
            const { device } = row.lane;
            return make('div', { class: 'label lane-label', title: reading.deviceText(device) },
                make('code', { text: device === NO_DEVICE ? '··' : hexByte(device) }),
                make(
                    'span',
                    { class: 'name', text: device === NO_DEVICE ? 'no device' : reading.names.get(device) ?? '' },
                ));
        }
        if (row.type === 'bit') {
            const { bit } = row;
            const place = `${hexByte(bit.device)}${bit.page === undefined || bit.page === null ? '' : ` p${bit.page === 'all' ? '*' : bit.page}`}`;
            return make('div', {
                class: 'label bit-label',
                title: `${bit.bit}: ${reading.deviceText(bit.device)} ${pageText(bit.page)}, ${reading.commandText(bit.device, bit.code)}`,
            },
                make('code', { text: place }), make('span', { class: 'name', text: bit.bit }),
                bit.kind === 'summary' || bit.kind === 'state' ? make(
                    'span',
                    { class: 'of', text: REGISTERS[bit.code] ?? '' },
                ) : null);
        }
        if (row.type === 'unit') {
            const made = make('div', { class: 'label unit-label' });
            const outs = row.tracks.map((it) => {
                const out = make('span', { class: 'readout' });
                made.append(make('div', {
                    class: `key hue${it.hue}`,
                    title: `${reading.deviceText(it.device)} ${pageText(it.page)} ${it.command}`,
                },
                    make(
                        'span',
                        { class: 'name', text: `${hexByte(it.device)}${onPage(it)} ${shortCommand(it.command)}` },
                    ), out));
                return out;
            });
            this.outs.set(row.key, outs);
            return made;
        }
        const { value } = row;
        const readout = make('span', { class: 'readout' });
        this.outs.set(row.key, [readout]);
        const name = reading.names.get(value.device);
        return make('div', {
            class: `label value-label hue${value.hue}`,
            title: `${reading.deviceText(value.device)} ${pageText(value.page)} ${value.command}`,
        },
            make(
                'span', { class: 'line' },
                make('code', { text: `${hexByte(value.device)}${onPage(value)}` }),
                make('span', { class: 'name', text: shortCommand(value.command) }),
            ),
            make('span', { class: 'line' }, make('span', { class: 'of', text: name ?? '' }), readout));
    }

    // The faults and warnings of a device's page, as bands.
    paintBands(context, styles, { device, page }, y, height) {
        for (const bit of this.bits) {
            if (bit.device !== device || bit.page !== page || bit.kind === 'state' || bit.explained) continue;
            context.fillStyle = bit.kind === 'warning' ? styles['warn-band'] : styles.band;
            for (const episode of bit.episodes.slice(0, 2000)) {
                const from = this.toX(this.reading.place(episode.first));
                const to = episode.gone >= 0 ? this.toX(this.reading.place(episode.gone)) : this.toX(this.reading.place(episode.last));
                if (to < this.left || from > this.left + this.width + 10) continue;
                context.fillRect(from, y, Math.max(2, to - from), height - 1);
            }
        }
    }

    // The indices of the values of a track that are shown, with one more at each side.
    shownOf(track) {
        const at = (i) => this.reading.place(track.rows.items[i]);
        const from = Math.max(0, lowerBound(track.rows.length, at, this.from) - 1);
        const to = Math.min(track.rows.length, lowerBound(track.rows.length, at, this.to) + 1);
        return [from, to];
    }

    paintValues(context, styles, values, y, height) {
        let least = Infinity;
        let greatest = -Infinity;
        for (const value of values) {
            const [from, to] = this.shownOf(value.track);
            const [low, high] = value.track.range(from, to);
            least = Math.min(least, low);
            greatest = Math.max(greatest, high);
            if (this.options.limits) {
                for (const limit of value.limits) {
                    const last = limit.track.values.items[limit.track.values.length - 1];
                    least = Math.min(least, last);
                    greatest = Math.max(greatest, last);
                }
            }
        }
        if (values.length === 1) this.paintBands(context, styles, values[0], y, height);
        if (least > greatest) return;
        const size = Math.max(Math.abs(least), Math.abs(greatest));
        const room = Math.max(greatest - least, size * 0.006, 1e-9);
        const centre = (least + greatest) / 2;
        const pad = 6;
        const toY = (number) => y + height / 2 - ((number - centre) / room) * (height - 2 * pad - 2);
        context.fillStyle = styles.muted;
        context.font = `9.5px ${styles.font}`;
        const words = this.paintScale(context, styles, centre - room / 2, centre + room / 2, toY, y, height);
        for (const value of values) {
            if (this.options.limits) this.paintLimits(context, styles, value, toY, values.length === 1 ? y : null);
            this.paintTrack(context, styles, value, toY);
        }
        for (const [text, at] of words) {
            context.fillStyle = styles.panel;
            context.globalAlpha = 0.8;
            context.fillRect(this.left + 1, at - 6, context.measureText(text).width + 5, 11);
            context.globalAlpha = 1;
            context.fillStyle = styles.muted;
            context.fillText(text, this.left + 3, at);
        }
    }

    // Draws the lines of a scale; returns its numbers, which are to stand above all else.
    paintScale(context, styles, low, high, toY, y, height) {
        const words = [];
        const step = tickStep(high - low, height > 80 ? height / 26 : 2);
        const digits = Math.max(0, Math.ceil(-Math.log10(step) - 1e-9));
        let drawn = 0;
        for (let n = Math.ceil(low / step); n * step <= high && drawn < 12; n++, drawn++) {
            const at = Math.round(toY(n * step)) + 0.5;
            context.strokeStyle = styles.grid;
            context.beginPath();
            context.moveTo(this.left, at);
            context.lineTo(this.left + this.width + 10, at);
            context.stroke();
            if (at - 4 > y && at + 5 < y + height) words.push([(n * step).toFixed(digits), at]);
        }
        return words;
    }

    // Draws the limits of a value; `top` is where its track begins, or null for no words.
    paintLimits(context, styles, value, toY, top) {
        let above = -Infinity;
        const of = value.limits.map(({ command, track }) => ({ command, track, last: track.values.items[track.values.length - 1] })).sort((one, two) => two.last - one.last);
        for (const { command, track } of of) {
            const last = track.values.items[track.values.length - 1];
            const at = Math.round(toY(last)) + 0.5;
            const warn = command.includes('WARN');
            context.strokeStyle = command.includes('FAULT') ? styles.bad : warn ? styles.warn : styles.good;
            context.setLineDash([5, 4]);
            context.beginPath();
            context.moveTo(this.left, at);
            context.lineTo(this.left + this.width + 10, at);
            context.stroke();
            context.setLineDash([]);
            const words = at - top < 12 ? at + 6 : at - 5;
            if (top === null || words - above < 10) continue;
            above = words;
            context.fillStyle = context.strokeStyle;
            const text = `${command.replace(/_LIMIT$/, '')} ${shortNumber(last, 5)}`;
            context.fillText(text, this.left + this.width - context.measureText(text).width, words);
        }
    }

    paintTrack(context, styles, value, toY) {
        const { track } = value;
        const { reading } = this;
        const [from, to] = this.shownOf(track);
        const stroke = styles.hues[value.hue];
        context.strokeStyle = stroke;
        context.fillStyle = stroke;
        context.lineJoin = 'round';
        const pixels = Math.ceil(this.width) + 1;
        if (to - from > pixels * 2) {
            // By pixel, from the least to the greatest.
            context.beginPath();
            let before = from;
            let last = null;
            for (let x = 0; x < pixels; x++) {
                const next = lowerBound(
                    to,
                    (i) => reading.place(track.rows.items[i]), this.toPlace(this.left + x + 1),
                );
                if (next <= before) continue;
                const [low, high] = track.range(before, next);
                const a = toY(high);
                const b = Math.max(toY(low), a + 1);
                if (last !== null) context.lineTo(this.left + x + 0.5, a);
                else context.moveTo(this.left + x + 0.5, a);
                context.lineTo(this.left + x + 0.5, b);
                last = b;
                before = next;
            }
            context.lineWidth = 1.1;
            context.stroke();
        } else {
            context.beginPath();
            for (let i = from; i < to; i++) {
                const x = this.toX(reading.place(track.rows.items[i]));
                const at = toY(track.values.items[i]);
                if (i === from) context.moveTo(x, at);
                else context.lineTo(x, at);
            }
            context.lineWidth = 1.4;
            context.stroke();
            if (to - from < this.width / 7 || to - from < 3) {
                for (let i = from; i < to; i++) {
                    const x = this.toX(reading.place(track.rows.items[i]));
                    const at = toY(track.values.items[i]);
                    const assumed = track.assumed.items[i];
                    context.beginPath();
                    context.arc(x, at, assumed ? 2.8 : 2.2, 0, 7);
                    if (assumed) {
                        context.fillStyle = styles.panel;
                        context.fill();
                        context.stroke();
                        context.fillStyle = stroke;
                    } else {
                        context.fill();
                    }
                }
            }
        }
        context.lineWidth = 1;
    }

    // What each track has under the pointer, or over the part that is marked, or else where it is.
    readouts() {
        const place = this.pointer && this.pointer.x >= this.left ? this.toPlace(this.pointer.x) : this.selected >= 0 ? this.reading.place(this.selected) : null;
        const text = (value) => {
            const { track } = value;
            if (this.mark) {
                const [from, to] = [...this.mark].sort((one, two) => one - two);
                const at = (i) => this.reading.place(track.rows.items[i]);
                const first = lowerBound(track.rows.length, at, from);
                const last = lowerBound(track.rows.length, at, to);
                if (last <= first) return '';
                const [low, high] = track.range(first, last);
                return `${shortNumber(low, 5)} … ${shortNumber(high, 5)}`;
            }
            if (place !== null) {
                const found = this.reading.valueAt(track, place);
                return found === null ? '' : `${found.assumed ? '≈' : ''}${withUnit(shortNumber(found.value), value.unit)}`;
            }
            const [low, high] = track.range(...this.shownOf(track));
            return low > high ? '' : low === high ? shortNumber(low, 5) : `${shortNumber(low, 4)} … ${shortNumber(high, 4)}`;
        };
        for (const row of this.rows) {
            const values = row.type === 'value' ? [row.value] : row.type === 'unit' ? row.tracks : [];
            const outs = this.outs?.get(row.key) ?? [];
            values.forEach((value, i) => {
                if (outs[i]) outs[i].textContent = text(value);
            });
        }
    }
}

const comparePages = (one, two) => String(one.page ?? '').localeCompare(
    String(two.page ?? ''), 'en', { numeric: true },
);
const onPage = ({ page, phase }) => `${page === undefined || page === null ? '' : ` p${page === 'all' ? '*' : page}`}${phase === undefined || phase === null ? '' : ` φ${phase}`}`;
const shortCommand = (command) => command.replace(/^READ_/, '');

function shortTitle(object) {
    const name = object.command ?? object.code ?? '';
    return `${object.device ?? ''}${object.page === undefined ? '' : ` page ${object.page}`} ${name}`.trim() || object.kind;
}
