// ---- runs of the program, and what they say of a recording

function startWorker(name) {
    const address = URL.createObjectURL(new Blob([WORKERS[name]], { type: 'text/javascript' }));
    const worker = new Worker(window.pmb.policy.createScriptURL(address));
    // (a browser may fetch it only after this turn)
    setTimeout(() => URL.revokeObjectURL(address), 10000);
    return worker;
}

// Starts a run of the program. Its output goes to `port`; the worker's own messages tell how far it is.
function startRun(words, input, port, more = {}) {
    const worker = startWorker('runner');
    worker.postMessage({ module: window.pmb.module, words, input, ...more }, [port]);
    return worker;
}

// Runs the program, and gives what it wrote. `signal` ends it; `progress` hears how far it is.
function program(words, input, { signal, progress } = {}) {
    return new Promise((resolve, reject) => {
        if (signal?.aborted) throw new DOMException('cancelled', 'AbortError');
        const channel = new MessageChannel();
        const pieces = [];
        const worker = startRun(words, input, channel.port2);
        const finish = () => {
            worker.terminate();
            channel.port1.close();
        };
        signal?.addEventListener('abort', () => {
            finish();
            reject(new DOMException('cancelled', 'AbortError'));
        });
        worker.onerror = (event) => {
            finish();
            reject(new Error(event.message || 'the program could not be started'));
        };
        worker.onmessage = ({ data }) => { if (data.used !== undefined) progress?.(data); };
        channel.port1.onmessage = ({ data }) => {
            if (data.bytes !== undefined) {
                pieces.push(data.bytes);
                return;
            }
            finish();
            const blob = new Blob(pieces);
            blob.text().then((text) => resolve({ text, blob, status: data.end, error: data.error }));
        };
    });
}

const KINDS = ['write', 'read', 'call', 'refused', 'alert', 'other', 'refusal', 'bad_token'];
const PROBLEM = 2;
const FAULT = 4;
const LATER_PART = 8;
const OTHER = 5;
const NO_DEVICE = 255;
const NO_SERIES = 65535;

// The values of one number of a device, with least and greatest of each 64 and of each 4,096.
class Track {
    constructor(id) {
        this.id = id;
        this.rows = new Growing(Uint32Array);
        this.values = new Growing(Float64Array);
        this.assumed = new Growing(Uint8Array);
        this.levels = [
            [new Growing(Float64Array), new Growing(Float64Array)],
            [new Growing(Float64Array), new Growing(Float64Array)],
        ];
        this.least = Infinity;
        this.greatest = -Infinity;
    }

    push(row, value, assumed) {
        const index = this.values.length;
        this.rows.push(row);
        this.values.push(value);
        this.assumed.push(assumed);
        if (value < this.least) this.least = value;
        if (value > this.greatest) this.greatest = value;
        this.levels.forEach(([low, high], level) => {
            const place = index >> (6 * (level + 1));
            if (place === low.length) {
                low.push(value);
                high.push(value);
            } else {
                if (value < low.items[place]) low.items[place] = value;
                if (value > high.items[place]) high.items[place] = value;
            }
        });
    }

    // Least and greatest of the values from one index to another.
    range(from, to) {
        let least = Infinity;
        let greatest = -Infinity;
        const { items } = this.values;
        const [[low1, high1], [low2, high2]] = this.levels;
        let i = from;
        while (i < to) {
            if ((i & 4095) === 0 && i + 4096 <= to) {
                least = Math.min(least, low2.items[i >> 12]);
                greatest = Math.max(greatest, high2.items[i >> 12]);
                i += 4096;
            } else if ((i & 63) === 0 && i + 64 <= to) {
                least = Math.min(least, low1.items[i >> 6]);
                greatest = Math.max(greatest, high1.items[i >> 6]);
                i += 64;
            } else {
                if (items[i] < least) least = items[i];
                if (items[i] > greatest) greatest = items[i];
                i++;
            }
        }
        return [least, greatest];
    }
}

// One recording under one profile: the workers that read and keep it, and the columns that are drawn.
class Reading {
    constructor(events) {
        this.events = events;
        this.keeper = startWorker('keeper');
        this.runs = new Map();
        this.waits = new Map();
        this.asked = new Map();
        this.next = 1;
        this.x = new Growing(Float64Array);
        this.device = new Growing(Uint8Array);
        this.kind = new Growing(Uint8Array);
        this.flags = new Growing(Uint8Array);
        this.at = new Growing(Uint32Array);
        this.series = new Growing(Uint16Array);
        this.lanes = new Map();
        this.tracks = new Map();
        this.problems = new Growing(Uint32Array);
        this.marks = new Growing(Uint32Array);
        this.count = 0;
        this.kinds = new Uint32Array(KINDS.length); // how many rows there are of each kind
        this.packets = 0;
        this.timed = false;
        this.untimed = 0;
        this.lastX = NaN;
        this.backwards = -1;
        this.bitTime = Infinity;
        this.summary = {
            names: [], commands: [], series: [], episodes: [], looks: [], lost: [], devices: [], end: null,
        };
        this.names = new Map();
        this.commands = new Map();
        this.blocks = new Map();
        this.ended = new Set();
        this.progress = { used: 0, size: 1 };
        this.cancel = new AbortController(); // of what is run besides, and not for the keeper
        this.closed = false;
        this.isCancelled = false;
        this.isOver = false; // nothing more comes, though it was not cancelled
        this.isSure = true; // not while its profile is that of a first part
        this.stats = null;
        this.errors = [];
        this.keeper.onmessage = ({ data }) => this.heard(data);
        this.keeper.onerror = (event) => this.events.failed(event.message || 'a worker could not be started');
    }

    // Asks the keeper.
    ask(question, words = {}) {
        if (this.closed) return new Promise(() => {});
        const id = this.next++;
        return new Promise((resolve) => {
            this.asked.set(id, resolve);
            this.keeper.postMessage({ ask: question, id, ...words });
        });
    }

    // Runs the program for one of the keeper's streams; gives how it ended, once all of it is there.
    run(stream, words, input) {
        const channel = new MessageChannel();
        this.keeper.postMessage({ stream }, [channel.port1]);
        const worker = startRun(words, input, channel.port2, { kept: stream !== 'capture', rows: stream === 'json' });
        this.runs.set(stream, worker);
        return new Promise((resolve) => {
            const turn = { resolve, left: 2 };
            this.waits.set(stream, turn);
            worker.onmessage = ({ data }) => {
                if (this.closed) return;
                if (data.end !== undefined) this.ends(stream, data);
                else this.told(stream, data);
            };
            worker.onerror = (event) => this.events.failed(event.message || 'the program could not be started');
        });
    }

    // A runner or the keeper says that a stream ended: it has where both did.
    ends(stream, data) {
        const turn = this.waits.get(stream);
        if (--turn.left > 0) return;
        this.runs.get(stream)?.terminate();
        this.runs.delete(stream);
        this.ended.add(stream);
        if (stream === 'log') this.blocks.clear();
        turn.resolve({ status: data.status ?? data.end, error: data.error });
    }

    // What a runner tells on the way.
    told(stream, data) {
        if (data.rows !== undefined) {
            this.takeRows(data);
            this.events.rows();
        } else if (data.summary !== undefined) {
            this.takeSummary(data.summary);
            this.events.summary();
        } else if (data.used !== undefined && stream !== 'log') {
            this.progress = data;
            this.events.progress();
        }
    }

    // What the keeper says.
    heard(data) {
        if (this.closed) return;
        if (data.lost !== undefined) {
            this.summary = { ...this.summary, lost: data.lost };
            this.events.summary();
        } else if (data.streamEnd !== undefined) {
            this.ends(data.streamEnd, data);
        } else if (data.answer !== undefined) {
            const resolve = this.asked.get(data.id);
            this.asked.delete(data.id);
            resolve?.(data.answer);
        }
    }

    takeRows(data) {
        const from = this.count;
        const length = data.to - data.rows;
        this.device.add(data.device);
        this.kind.add(data.kind);
        this.flags.add(data.flags);
        this.at.add(data.at);
        this.series.add(data.series);
        if (this.x.length + length > this.x.items.length) this.x.room(Math.max(
            this.x.items.length * 2, this.x.length + length,
        ));
        for (let i = 0; i < length; i++) {
            const row = from + i;
            const time = data.time[i];
            if (time === time) {
                if (!this.timed) {
                    // What came before the first time has that time.
                    for (let k = this.untimed; k < row; k++) this.x.items[k] = time;
                    this.timed = true;
                }
                if (time < this.lastX && this.backwards < 0) this.backwards = row;
                if (this.lastRow !== undefined && time > this.lastX) {
                    const events = (data.at[i] - this.at.items[this.lastRow]) >>> 0;
                    if (events > 4) this.bitTime = Math.min(this.bitTime, (time - this.lastX) / (events * 4.5));
                }
                if (!(time === this.lastX)) this.lastRow = row;
                this.lastX = time;
            }
            this.x.items[row] = this.timed ? this.lastX : row;
            this.kinds[data.kind[i]]++;
            if (data.kind[i] < OTHER && !(data.flags[i] & LATER_PART)) this.packets++;
            const device = data.device[i];
            let lane = this.lanes.get(device);
            if (lane === undefined) {
                lane = {
                    device, rows: new Growing(Uint32Array), marks: new Growing(Uint32Array),
                    faults: new Growing(Uint32Array),
                };
                this.lanes.set(device, lane);
            }
            lane.rows.push(row);
            if (data.flags[i] & PROBLEM) this.problems.push(row);
            if (data.flags[i] & FAULT) lane.faults.push(row);
            else if (data.kind[i] > 2 && data.kind[i] !== OTHER) {
                lane.marks.push(row);
                this.marks.push(row);
            }
            const series = data.series[i];
            if (series !== NO_SERIES) {
                let track = this.tracks.get(series);
                if (track === undefined) {
                    track = new Track(series);
                    this.tracks.set(series, track);
                }
                track.push(row, data.value[i], data.flags[i] & 1);
            }
        }
        this.x.length = from + length;
        this.count = from + length;
    }

    takeSummary(summary) {
        this.summary = { ...summary, lost: this.summary.lost };
        this.names = new Map(summary.names);
        this.commands = new Map(summary.commands);
    }

    // Whether the axis is of time; otherwise it is of the order of rows.
    get hasTimes() {
        return this.timed && this.backwards < 0;
    }

    // Where a row is on the axis.
    place(row) {
        return this.hasTimes ? this.x.items[row] : row;
    }

    // How long a row's packet takes on the wire, as far as the shortest distance of two packets tells.
    length(row) {
        if (!this.hasTimes || this.bitTime === Infinity) return 0;
        const events = row + 1 < this.count ? (this.at.items[row + 1] - this.at.items[row]) >>> 0 : 12;
        return Math.min(Math.max(events, 3), 600) * 4.5 * this.bitTime;
    }

    get span() {
        if (this.count === 0) return [0, 1];
        const from = this.place(0);
        const to = this.place(this.count - 1);
        const last = this.hasTimes ? this.length(this.count - 1) : 1;
        return [from, to + last > from ? to + last : from + 1];
    }

    // The time of a row as a text of the axis.
    timeText(place, digits) {
        const { base, dates } = this.summary;
        if (!this.hasTimes) return `#${grouped(Math.round(place))}`;
        const time = (base ?? 0) + place;
        if (!dates) return `${time.toFixed(digits)} s`;
        const date = new Date(Math.floor(time) * 1000);
        const fraction = (time - Math.floor(time)).toFixed(Math.min(digits, 6)).slice(1);
        return `${date.toISOString().slice(11, 19)}${fraction}`;
    }

    deviceText(device) {
        if (device === NO_DEVICE) return 'no device';
        const name = this.names.get(device);
        return name ? `${hexByte(device)} ${name}` : hexByte(device);
    }

    commandText(device, code) {
        return this.commands.get(device * 256 + code) ?? (code < 256 ? hexByte(code) : '');
    }

    // A row's object and line, or null where they are not here yet; they are asked for, and `rows` is
    // called when they came.
    text(row) {
        const number = row >> 7;
        const block = this.blocks.get(number);
        if (block !== undefined) {
            if (block.waiting) return block.old?.[row & 127] ?? null;
            const found = block.rows[row & 127];
            if (found !== undefined && (found.whole || this.ended.has('log'))) return found;
            if (performance.now() - block.time < 150) return found ?? null;
        }
        const old = block?.rows;
        this.blocks.set(number, { waiting: true, old });
        if (this.blocks.size > 400) this.blocks.delete(this.blocks.keys().next().value);
        this.ask('block', { number }).then(({ json, log }) => {
            const rows = json.map((line, i) => {
                const object = JSON.parse(line);
                return {
                    object, line, log: log[i] ?? '', whole: log[i] !== undefined, says: saysOf(object, log[i] ?? ''),
                };
            });
            this.blocks.set(number, { rows, time: performance.now() });
            this.events.texts();
        });
        return old?.[row & 127] ?? null;
    }

    // The value of a track at a place: the last one that was read before it.
    valueAt(track, place) {
        const index = lowerBound(track.rows.length, (i) => this.place(track.rows.items[i]), place + 1e-12) - 1;
        return index < 0 ? null : {
            value: track.values.items[index], row: track.rows.items[index], assumed: track.assumed.items[index],
        };
    }

    close() {
        this.closed = true;
        this.cancel.abort();
        for (const worker of this.runs.values()) worker.terminate();
        this.keeper.terminate();
        this.runs.clear();
    }
}

// What a line of `pmb log` says behind its columns.
function saysOf(object, line) {
    let rest = line;
    const skip = (text, whole = true) => {
        rest = rest.trimStart();
        if (rest.startsWith(text) && (!whole || rest.length === text.length || rest[text.length] === ' ')) {
            rest = rest.slice(text.length);
            return true;
        }
        return false;
    };
    if (object.time !== undefined) skip(object.time);
    if (object.device !== undefined && object.device !== null) skip(object.device);
    if (object.name !== undefined) skip(object.name, false);
    if (object.page !== undefined) skip(object.page === 'all' ? '*' : object.page === null ? '?' : String(object.page));
    if (object.command !== undefined) skip(object.command);
    else if (object.code !== undefined) skip(object.code);
    return rest.trimStart();
}
