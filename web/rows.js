// ---- the rows of a recording: what the objects of `pmb json` say, as columns
//
// A runner takes them as the program writes them. Of each row a few columns go to the page, which draws
// them, and to the keeper, which filters by them.

// What came since the last message.
const columns = {
    time: new Column(Float64Array), // seconds since the first, NaN for none
    device: new Column(Uint8Array), // NONE for none
    kind: new Column(Uint8Array), // the place in KINDS
    code: new Column(Uint16Array), // 256 for none
    flags: new Column(Uint8Array), // see below
    at: new Column(Uint32Array), // the number of the first event, without what is above 32 bits
    series: new Column(Uint16Array), // 65535 for none
    value: new Column(Float64Array),
};
const ASSUMED = 1; // rests on a VOUT_MODE that the capture has not told
const names = new Map(); // device: its name
const commands = new Map(); // device * 256 + code: the name of the command
const series = new Map();
const registers = new Map();
const episodes = [];
const looks = new Map();
const state = {
    sent: 0,
    base: null,
    dates: false,
    backwards: -1,
    lastTime: -Infinity,
    changed: true,
    told: 0,
    ended: false,
    end: null,
    devices: [],
    problems: 0,
};

// ---- the objects of `pmb json`

// Seconds of a time's text, since the first time of the recording.
function seconds(text) {
    let whole;
    let fraction = 0;
    let digits;
    if (text.length > 10 && text.charCodeAt(4) === 45) {
        digits = /^(.{19})(?:\.([0-9]*))?(.*)$/.exec(text);
        if (digits === null) return NaN;
        let zone = digits[3] || 'Z';
        if (/^[+-][0-9]{2}$/.test(zone)) zone += ':00';
        whole = Date.parse(digits[1] + zone) / 1000;
        if (Number.isNaN(whole)) return NaN;
        if (digits[2]) fraction = Number(`0.${digits[2]}`);
        state.dates = true;
    } else {
        const point = text.indexOf('.');
        whole = Number(point < 0 ? text : text.slice(0, point) || '0');
        if (Number.isNaN(whole)) whole = 0;
        if (point >= 0) fraction = Number(`0${text.slice(point)}`);
        if (text.charCodeAt(0) === 45) {
            fraction = -fraction;
        }
    }
    if (state.base === null) state.base = whole;
    return whole - state.base + fraction;
}

// A look at the bytes of one object. Keys come in an order of their own, strings are ASCII and have no
// quotation mark inside, so a scan from byte to byte finds all that a row needs.
class Scan {
    begin(bytes, at) {
        this.bytes = bytes;
        this.place = at;
    }

    // A text from one place to another.
    text(from, to) {
        let text = '';
        for (let i = from; i < to; i++) text += String.fromCharCode(this.bytes[i]);
        return text;
    }

    // Passes over the value that begins here.
    pass() {
        const { bytes } = this;
        let depth = 0;
        for (let i = this.place; ; i++) {
            const byte = bytes[i];
            if (byte === 34) {
                i = bytes.indexOf(34, i + 1);
                if (depth === 0) {
                    this.place = i + 1;
                    return;
                }
            } else if (byte === 91 || byte === 123) {
                depth++;
            } else if (byte === 93 || byte === 125) {
                if (depth === 0) {
                    this.place = i;
                    return;
                }
                if (--depth === 0) {
                    this.place = i + 1;
                    return;
                }
            } else if (byte === 44 && depth === 0) {
                this.place = i;
                return;
            }
        }
    }

    // A number that begins here.
    number() {
        const { bytes } = this;
        let i = this.place;
        const from = i;
        let value = 0;
        let scale = 1;
        const minus = bytes[i] === 45;
        if (minus) i++;
        for (; bytes[i] >= 48 && bytes[i] <= 57; i++) value = value * 10 + bytes[i] - 48;
        if (bytes[i] === 46) {
            for (i++; bytes[i] >= 48 && bytes[i] <= 57; i++) {
                value = value * 10 + bytes[i] - 48;
                scale *= 10;
            }
        }
        this.place = i;
        if (i - from > 15) return Number(this.text(from, i));
        return (minus ? -value : value) / scale;
    }
}

const KEY = (word) => (word.length << 16) | (word.charCodeAt(0) << 8) | word.charCodeAt(word.length - 1);
const KEYS = Object.fromEntries(
    ['kind', 'time', 'device', 'name', 'code', 'command', 'page', 'phase', 'bytes', 'value', 'number', 'mode',
        'unit', 'ratio', 'bits', 'refused', 'reason', 'word', 'part'].map((word) => [word, KEY(word)]),
);
const KIND_KEYS = new Map(KINDS.map((word, i) => [KEY(word), i]));
const scan = new Scan();
let lastTimeText = '';
let lastTimeValue = NaN;

// Takes the object of a row: from the byte after `{"at":` on.
function takeRow(bytes, from) {
    scan.begin(bytes, from);
    const at = scan.number();
    scan.place += 8; // ,"line":
    const line = scan.number();
    scan.place += 10; // ,"column":
    scan.number();
    let time = NaN;
    let kind = 0;
    let device = NONE;
    let code = 256;
    let page = null;
    let phase;
    let number = NaN;
    let flags = 0;
    let nameAt = -1;
    let nameTo = 0;
    let commandAt = -1;
    let commandTo = 0;
    let unitAt = -1;
    let unitTo = 0;
    let bitsAt = -1;
    let bitsTo = 0;
    let bytesAt = -1;
    let bytesTo = 0;
    let whyAt = -1;
    let whyTo = 0;
    let part = 0;
    while (bytes[scan.place] === 44) {
        const keyAt = scan.place + 2;
        const keyTo = bytes.indexOf(34, keyAt);
        const key = ((keyTo - keyAt) << 16) | (bytes[keyAt] << 8) | bytes[keyTo - 1];
        const valueAt = keyTo + 2;
        scan.place = valueAt;
        switch (key) {
            case KEYS.number:
                number = scan.number();
                continue;
            case KEYS.part:
                part = scan.number();
                continue;
            default:
                scan.pass();
        }
        const to = scan.place;
        switch (key) {
            case KEYS.time: {
                const text = scan.text(valueAt + 1, to - 1);
                if (text !== lastTimeText) {
                    lastTimeText = text;
                    lastTimeValue = seconds(text);
                }
                time = lastTimeValue;
                break;
            }
            case KEYS.kind: {
                const word = ((to - valueAt - 2) << 16) | (bytes[valueAt + 1] << 8) | bytes[to - 2];
                kind = KIND_KEYS.get(word) ?? 0;
                break;
            }
            case KEYS.device:
                if (bytes[valueAt] === 34) device = hex(bytes, valueAt + 1);
                break;
            case KEYS.name:
                nameAt = valueAt + 1;
                nameTo = to - 1;
                break;
            case KEYS.code:
                code = hex(bytes, valueAt + 1);
                break;
            case KEYS.command:
                commandAt = valueAt + 1;
                commandTo = to - 1;
                break;
            case KEYS.page:
                page = selected(bytes, valueAt, to);
                break;
            case KEYS.phase:
                phase = selected(bytes, valueAt, to);
                break;
            case KEYS.bytes:
                bytesAt = valueAt + 1;
                bytesTo = to - 1;
                break;
            case KEYS.mode:
                flags |= ASSUMED;
                break;
            case KEYS.unit:
                unitAt = valueAt + 1;
                unitTo = to - 1;
                break;
            case KEYS.bits:
                bitsAt = valueAt;
                bitsTo = to;
                break;
            case KEYS.refused:
            case KEYS.reason:
            case KEYS.word:
                whyAt = valueAt + 1;
                whyTo = to - 1;
                break;
            default:
        }
    }
    const index = state.sent + columns.kind.length;
    if (nameAt >= 0 && !names.has(device)) names.set(device, unescape(scan.text(nameAt, nameTo)));
    const command = device * 256 + code;
    if (code < 256 && commandAt >= 0 && !commands.has(command)) {
        commands.set(command, scan.text(commandAt, commandTo));
    }
    if (time === time) {
        if (time < state.lastTime && state.backwards < 0) state.backwards = index;
        state.lastTime = time;
    }
    let ofSeries = 65535;
    if (number === number && code < 256 && kind < 2) {
        ofSeries = seriesOf(device, page, phase, code, unitAt < 0 ? '' : unescape(scan.text(unitAt, unitTo)), kind);
        if (flags & ASSUMED) {
            look(`V|${device}|${page}`, { kind: 'assumed', device, page, level: 2 }, index);
        }
    }
    if (bitsAt >= 0) {
        const set = takeBits(index, device, page, phase, code, bitsAt, bitsTo, bytesAt, bytesTo);
        if (set) flags |= FAULT | PROBLEM;
    }
    if (kind === 3) {
        const place = scan.text(whyAt, whyTo);
        const of = place === 'address' ? 256 : code;
        look(`N|${place}|${device}|${of}`, { kind: 'nack', place, device, code: of, level: 1 }, index);
        flags |= PROBLEM;
    } else if (kind === 4) {
        look(`A|${device}`, { kind: 'alert', device, level: 1 }, index);
        flags |= PROBLEM;
    } else if (kind === 6) {
        const reason = scan.text(whyAt, whyTo);
        look(`R|${reason}|${device}|${code}`, { kind: 'refusal', reason, device, code, level: 0 }, index);
        flags |= PROBLEM;
    } else if (kind === 7) {
        look(
            'T',
            { kind: 'bad_token', word: unescape(scan.text(whyAt, whyTo)), device: NONE, line, level: 0 }, index,
        );
        flags |= PROBLEM;
    }
    if (flags & PROBLEM) state.problems++;
    columns.time.push(time);
    columns.device.push(device);
    columns.kind.push(kind);
    columns.code.push(code);
    columns.flags.push(flags | (part > 1 ? 8 : 0));
    columns.at.push(at);
    columns.series.push(ofSeries);
    columns.value.push(number);
}

// A page or a phase: a number, "all", or "?" where it isn't known.
function selected(bytes, from, to) {
    if (bytes[from] === 34) return 'all';
    if (bytes[from] === 110) return '?';
    let number = 0;
    for (let i = from; i < to; i++) number = number * 10 + bytes[i] - 48;
    return number;
}

const unescape = (text) =>
    text.includes('\\') ? text.replace(
        /\\u([0-9a-f]{4})/g,
        (_, digits) => String.fromCharCode(parseInt(digits, 16)),
    ) : text;

// The number of the series that a value belongs to.
function seriesOf(device, page, phase, code, unit, kind) {
    const key = `${device} ${page} ${phase} ${code}`;
    let found = series.get(key);
    if (found === undefined) {
        if (series.size >= 60000) return 65535;
        const command = commands.get(device * 256 + code) ?? hexText(code);
        found = { id: series.size, device, page, phase, code, command, unit, written: false };
        series.set(key, found);
        state.changed = true;
    }
    if (kind === 0 && !found.written) {
        found.written = true;
        state.changed = true;
    }
    return found.id;
}

const hexText = (byte) => byte.toString(16).padStart(2, '0');

// What needs a look, counted by what it is.
function look(key, what, index) {
    const found = looks.get(key);
    if (found === undefined) {
        looks.set(key, { ...what, count: 1, first: index, last: index });
    } else {
        found.count++;
        found.last = index;
    }
    state.changed = true;
}

// ---- status bits, from set to gone

const STATE_BITS = new Set(['BUSY', 'OFF', 'POWER_GOOD_N']);
const SUMMARY_BITS = new Set(['VOUT', 'IOUT_POUT', 'INPUT', 'MFR_SPECIFIC', 'FANS', 'OTHER', 'UNKNOWN', 'TEMPERATURE',
    'CML', 'NONE_OF_THE_ABOVE']);
// For a bit of STATUS_WORD the registers whose bits it sums up.
const SUMMED = [[15, [0x7a]], [14, [0x7b]], [13, [0x7c]], [12, [0x80]], [10, [0x81, 0x82]], [9, [0x7f]], [2, [0x7d]],
    [1, [0x7e]]];

// A class for a bit's name: as `pmb stats --fail-on faults` has it, with those that sum up apart.
function classOf(bit, code) {
    if (STATE_BITS.has(bit)) return 'state';
    if (bit.endsWith('_WARN') || bit.endsWith('_OVERRIDE')) return 'warning';
    if ((code === 0x79 || code === 0x78) && SUMMARY_BITS.has(bit)) return 'summary';
    return 'fault';
}

function registerOf(device, page, phase, code) {
    const key = `${device} ${page} ${phase} ${code}`;
    let found = registers.get(key);
    if (found === undefined) {
        found = { open: new Map(), last: '' };
        registers.set(key, found);
    }
    return found;
}

// Takes a read of a status register; returns whether one of its bits is a fault.
function takeBits(index, device, page, phase, code, from, to, bytesAt, bytesTo) {
    const text = scan.text(from, to);
    const register = registerOf(device, page, phase, code);
    let fault = false;
    if (text !== '[]' || register.open.size > 0) {
        const bits = JSON.parse(text);
        for (const [bit, episode] of register.open) {
            if (!bits.includes(bit)) {
                episode.gone = index;
                register.open.delete(bit);
                state.changed = true;
            }
        }
        for (const bit of bits) {
            const episode = register.open.get(bit);
            const kind = classOf(bit, code);
            fault ||= kind === 'fault' || kind === 'summary';
            if (episode === undefined) {
                const made = {
                    device, page, phase, code, bit, kind, first: index, last: index, gone: -1, by: 0, count: 1,
                };
                register.open.set(bit, made);
                if (episodes.length < 100000) episodes.push(made);
            } else {
                episode.last = index;
                episode.count++;
            }
            state.changed = true;
        }
    }
    if ((code === 0x79 || code === 0x78) && bytesTo - bytesAt >= 2) {
        let word = hex(scan.bytes, bytesAt);
        if (bytesTo - bytesAt >= 4) word |= hex(scan.bytes, bytesAt + 2) << 8;
        for (const [bit, codes] of SUMMED) {
            if (word & (1 << bit) || (bit > 7 && code === 0x78)) continue;
            for (const other of codes) endRegister(index, device, page, code, other);
        }
    }
    return fault;
}

// A bit that sums up a register is 0: none of the register's bits is set any more.
function endRegister(index, device, page, by, code) {
    const found = registers.get(`${device} ${page} undefined ${code}`);
    if (found === undefined || found.open.size === 0) return;
    for (const episode of found.open.values()) {
        episode.gone = index;
        episode.by = by;
    }
    found.open.clear();
    state.changed = true;
}

// ---- the stream

// What is left of a line that a piece cut.
let rest = new Uint8Array(0);

function takeJson(bytes) {
    let from = 0;
    if (rest.length > 0) {
        const end = bytes.indexOf(LF);
        if (end < 0) {
            rest = joined(rest, bytes);
            return;
        }
        takeObject(joined(rest, bytes.subarray(0, end + 1)), 0);
        from = end + 1;
    }
    for (let end = bytes.indexOf(LF, from); end >= 0; end = bytes.indexOf(LF, from)) {
        takeObject(bytes, from);
        from = end + 1;
    }
    rest = bytes.slice(from);
}

// Takes the object that begins at a place: a row's, or one of the counts at the end.
function takeObject(bytes, from) {
    if (bytes[from + 2] === 97) {
        takeRow(bytes, from + 6); // {"at":
        return;
    }
    const object = JSON.parse(latin1.decode(bytes.subarray(from, bytes.indexOf(LF, from))));
    if (object.kind === 'end') state.end = object;
    else state.devices.push(object);
}

// Sends the columns of the rows that came, and from time to time what they sum up to.
function sendRows(sink) {
    const from = state.sent;
    const to = from + columns.kind.length;
    if (to > from) {
        const kept = {};
        for (const [name, column] of Object.entries(columns)) {
            kept[name] = column.items.slice(0, to - from);
            column.length = 0;
        }
        sink.postMessage({ columns: kept });
        const { code, ...message } = kept;
        self.postMessage({ rows: from, to, ...message });
        state.sent = to;
    }
    tellSummary();
}

function tellSummary() {
    const now = performance.now();
    if (!state.changed || (now - state.told < 200 && !state.ended)) return;
    state.told = now;
    state.changed = false;
    self.postMessage({
        summary: {
            names: [...names],
            commands: [...commands],
            series: [...series.values()],
            episodes: episodes.slice(0, 20000),
            looks: [...looks.values()],
            base: state.base,
            dates: state.dates,
            backwards: state.backwards,
            problems: state.problems,
            end: state.end,
            devices: state.devices,
        },
    });
}
