// ---- what needs a look: faults, refusals, no answers, alerts, what the recording lacks

const REASONS = {
    BadPec: 'Wrong packet error code',
    UnknownDevice: 'A device that the profile does not have',
    UnknownCommand: 'A command that the profile does not have',
    ReadFirst: 'A read without a command',
    BadRestart: 'A repeated START that cannot come there',
    TooLong: 'Read on after all bytes',
    TooShort: 'Ended before all bytes',
    WrongEvent: 'An event that cannot come there',
    Truncated: 'The capture ends inside a packet',
};

const REGISTERS = {
    0x78: 'BYTE', 0x79: 'WORD', 0x7a: 'VOUT', 0x7b: 'IOUT', 0x7c: 'INPUT', 0x7d: 'TEMPERATURE', 0x7e: 'CML', 0x7f: 'OTHER',
    0x80: 'MFR_SPECIFIC', 0x81: 'FANS_1_2', 0x82: 'FANS_3_4',
};
const OVER = {
    0x7a: 'VOUT', 0x7b: 'IOUT_POUT', 0x7c: 'INPUT', 0x7d: 'TEMPERATURE', 0x7e: 'CML', 0x7f: 'OTHER',
    0x80: 'MFR_SPECIFIC', 0x81: 'FANS', 0x82: 'FANS',
};

const pageText = (page) => (
    page === undefined ||
    page === null ? '' : page === 'all' ? 'all pages' : page === '?' ? 'page unknown' : `page ${page}`
);

// The episodes of each bit together, by device, page and register.
function bitsOf(reading) {
    const found = new Map();
    for (const episode of reading.summary.episodes) {
        const key = `${episode.device} ${episode.page} ${episode.phase} ${episode.code} ${episode.bit}`;
        const bit = found.get(key);
        if (bit === undefined) {
            found.set(key, { ...episode, key, episodes: [episode] });
        } else {
            bit.episodes.push(episode);
            bit.count += episode.count;
        }
    }
    // A bit that sums up a register says nothing more where a bit of that register was read set.
    const under = new Set();
    for (const bit of found.values()) {
        if (bit.code !== 0x79 && bit.code !== 0x78) under.add(`${bit.device} ${bit.page} ${OVER[bit.code]}`);
    }
    for (const bit of found.values()) {
        bit.explained = bit.kind === 'summary' && under.has(`${bit.device} ${bit.page} ${bit.bit}`);
    }
    return [...found.values()];
}

// How many bits were faults: those that sum up others count where none of the others was read.
const faultsOf = (bits) => bits.filter((bit) => bit.kind === 'fault' || (bit.kind === 'summary' && !bit.explained)).length;

// The list: worst first, and of one kind the earliest.
function looksOf(reading, lossLine) {
    const list = [];
    const name = (device) => reading.deviceText(device);
    for (const bit of bitsOf(reading)) {
        if (bit.explained) continue;
        const last = bit.episodes[bit.episodes.length - 1];
        const level = bit.kind === 'fault' || bit.kind === 'summary' ? 0 : bit.kind === 'warning' ? 1 : 2;
        list.push({
            level, what: bit.bit, times: bit.episodes.length, row: bit.first, device: bit.device, page: bit.page,
            where: `${name(bit.device)} ${pageText(bit.page)}`.trim(),
            detail: `${reading.commandText(bit.device, bit.code)}${last.gone < 0 ? ', not seen gone' : ''}`,
            rows: bit.episodes.map((episode) => episode.first),
        });
    }
    for (const look of reading.summary.looks) {
        const command = look.code < 256 ? reading.commandText(look.device, look.code) : '';
        const base = {
            level: look.level, times: look.count, row: look.first, device: look.device,
            where: look.device === NO_DEVICE ? '' : name(look.device), detail: command,
        };
        if (look.kind === 'refusal') list.push({ ...base, what: REASONS[look.reason] ?? look.reason });
        else if (look.kind === 'nack') {
            const what = {
                address: 'No answer to the address', code: 'Refused a command', byte: 'Refused a byte', 'read address': 'Refused its read address',
            }[look.place];
            list.push({ ...base, what });
        } else if (look.kind === 'alert') list.push({
            ...base,
            what: look.device === NO_DEVICE ? 'An alert that no device answered' : 'Alert',
        });
        else if (look.kind === 'bad_token') list.push({
            ...base, what: 'A word that is no capture text',
            detail: `${look.word} in line ${look.line}`,
        });
        else if (look.kind === 'assumed') {
            list.push({
                ...base,
                what: 'Voltages rest on an assumed VOUT_MODE',
                where: `${name(look.device)} ${pageText(look.page)}`.trim(), detail: 'the recording has not told it',
            });
        }
    }
    for (const loss of reading.summary.lost) {
        const minor = loss.what === 'Lines were passed over' || loss.what === 'A transfer failed';
        list.push({
            level: minor ? 2 : 1, what: loss.what, times: loss.count, row: -1, line: loss.line,
            where: 'the recording', detail: loss.text,
        });
    }
    list.sort((one, two) => one.level - two.level || one.row - two.row);
    return list;
}

const LEVELS = ['bad', 'warn', 'note'];
const LEVEL_SIGNS = [['✕', 'error'], ['▲', 'warning'], ['●', 'to know']];

class Looks {
    constructor(place, choose) {
        this.choose = choose;
        this.list = make('ul', { class: 'looks', 'aria-label': 'What needs a look' });
        this.none = make('p', { class: 'quiet' });
        place.append(this.list, this.none);
        this.keys = '';
        this.next = new Map();
    }

    show(reading) {
        const items = reading ? looksOf(reading) : [];
        const keys = JSON.stringify(items);
        this.none.textContent = items.length > 0 || !reading ? '' : this.noneText(reading);
        this.none.hidden = this.none.textContent === '';
        if (keys === this.keys) return;
        this.keys = keys;
        const chosen = document.activeElement?.dataset?.look;
        this.list.replaceChildren(...items.slice(0, 400).map((item) => this.item(reading, item)));
        if (chosen) [...this.list.querySelectorAll('button')].find((it) => it.dataset.look === chosen)?.focus();
        this.count = items.length;
    }

    // What stands in the place of an empty list. That there is nothing is said of all that was read, with
    // the profile of all of it.
    noneText(reading) {
        const isRead = reading.ended.has('json');
        if (reading.isCancelled) return 'It was cancelled. There was nothing up to there.';
        if (!reading.isOver && !(isRead && reading.isSure)) return 'Reading …';
        if (!isRead) return 'Nothing was read.';
        if (reading.count === 0) return 'There is no packet in it.';
        return reading.isSure ? 'Nothing: no fault, no protocol error, and every packet was acknowledged.'
            : 'Nothing, as far as the profile of its first part tells.';
    }

    item(reading, item) {
        const key = `${item.what} ${item.where} ${item.detail}`;
        const [mark, words] = LEVEL_SIGNS[item.level];
        const when = item.row >= 0 ? reading.timeText(
            reading.place(item.row), 3,
        ) : item.line ? `line ${grouped(item.line)}` : '';
        const made = make('button', {
            type: 'button', class: `look ${LEVELS[item.level]}`, 'data-look': key,
            onclick: () => {
                // Each further click goes on to the next of its kind.
                const rows = item.rows ?? [item.row];
                const turn = (this.next.get(key) ?? -1) + 1;
                this.next.set(key, turn % rows.length);
                this.choose(item, rows[turn % rows.length]);
            },
        },
        make('span', { class: 'mark', text: mark, role: 'img', 'aria-label': words }),
        make('span', { class: 'what', text: item.what }),
        make('span', { class: 'times', text: item.times > 1 ? `${grouped(item.times)}×` : '' }),
        make('span', { class: 'where' }, make('b', { text: item.where }), make('span', { text: item.detail })),
        make('span', { class: 'when', text: when }));
        return make('li', {}, made);
    }
}
