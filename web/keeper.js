// ---- the keeper: a worker that keeps what the program wrote of a recording
//
// That is the objects of `pmb json` and the lines of `pmb log`, one of each for a row, and the text of the
// capture. Texts are kept in Blobs, so that they can leave the memory, those of long recordings packed, and
// are found by marks, one for each 128 lines. A keeper serves one recording: the next one gets another.

const reader = new FileReaderSync();

// Lines as they come, which are found by their numbers, counted from 0.
class Lines {
    constructor() {
        this.parts = [];
        this.starts = [];
        this.size = 0;
        this.opened = new Map();
        this.count = 0;
        this.marks = [0];
    }

    // Adds a part of a runner's: its text, perhaps packed, and where in it blocks of lines begin.
    put({ blob, isPacked, size, lines, marks }) {
        for (const mark of marks) this.marks.push(this.size + mark);
        this.count += lines;
        this.parts.push({ blob, isPacked, size });
        this.starts.push(this.size);
        this.size += size;
    }

    // Adds bytes, whose lines may be cut anywhere.
    add(bytes, blob) {
        const { lines, marks } = marksIn(bytes, this.count);
        this.put({ blob: blob ?? new Blob([bytes]), isPacked: false, size: bytes.length, lines, marks });
    }

    // The bytes of a part. The last few that were unpacked are at hand.
    bytes(number) {
        const { blob, isPacked, size } = this.parts[number];
        if (!isPacked) return new Uint8Array(reader.readAsArrayBuffer(blob));
        let bytes = this.opened.get(number);
        if (bytes === undefined) {
            bytes = unpack(new Uint8Array(reader.readAsArrayBuffer(blob)), size);
            if (this.opened.size > 4) this.opened.delete(this.opened.keys().next().value);
            this.opened.set(number, bytes);
        }
        return bytes;
    }

    // The bytes from one place to another.
    slice(from, to) {
        let low = 0;
        let high = this.starts.length;
        while (high - low > 1) {
            const middle = (low + high) >> 1;
            if (this.starts[middle] <= from) low = middle;
            else high = middle;
        }
        const found = [];
        for (let i = low; i < this.parts.length && this.starts[i] < to; i++) {
            const start = this.starts[i];
            const { blob, isPacked } = this.parts[i];
            found.push((isPacked ? this.bytes(i) : blob).slice(Math.max(0, from - start), to - start));
        }
        return new Uint8Array(reader.readAsArrayBuffer(new Blob(found)));
    }

    // The lines of a block that have come whole.
    block(number) {
        const from = this.marks[number];
        if (from === undefined) return [];
        const lines = latin1.decode(this.slice(from, this.marks[number + 1] ?? this.size)).split('\n');
        lines.pop();
        return lines;
    }

    // Where a line begins.
    start(line) {
        const block = Math.floor(line / BLOCK);
        const at = this.marks[block];
        if (at === undefined) return this.size;
        if (line % BLOCK === 0) return at;
        const bytes = this.slice(at, this.marks[block + 1] ?? this.size);
        let place = 0;
        for (let n = line % BLOCK; n > 0; n--) {
            place = bytes.indexOf(LF, place) + 1;
            if (place === 0) return this.size;
        }
        return at + place;
    }
}

const json = new Lines();
const log = new Lines();
const capture = new Lines();
const lost = []; // what a recording lacks, by its kind
const columns = {
    device: new Column(Uint8Array),
    kind: new Column(Uint8Array),
    code: new Column(Uint16Array),
    flags: new Column(Uint8Array),
    series: new Column(Uint16Array),
};

// ---- the text of the capture: what a recording lacks stands in its comments

const comment = { open: false, line: '' };

// Looks at bytes of the capture: the comments of `pmb import`, and the number of the line of each.
function takeCapture(bytes) {
    const { length } = bytes;
    for (let i = 0; i < length; i++) {
        const byte = bytes[i];
        if (comment.open) {
            const end = bytes.indexOf(LF, i);
            const to = end < 0 ? length : end;
            if (comment.line.length < 200) comment.line += latin1.decode(bytes.subarray(i, Math.min(to, i + 200)));
            i = to;
            if (end < 0) break;
            takeComment(comment.line, capture.scanned + 1);
            comment.open = false;
            capture.scanned++;
        } else if (byte === LF) {
            capture.scanned++;
        } else if (byte === 35) {
            comment.open = true;
            comment.line = '';
        }
    }
}

const LACKS = [
    [/: makes no sense$/, 'A line of the recording makes no sense'],
    [/: does not follow$/, 'A line of the recording does not follow those before it'],
    [/ is cut$/, 'A packet is cut'],
    [/ is too long$/, 'A packet is too long'],
    [/ events were lost$|event was lost$/, 'Events were lost'],
    [/rows are missing in front$/, 'Rows are missing'],
    [/is marked as an error$/, 'A row is marked as an error'],
    [/: shows [0-9]+ of [0-9]+ bytes$/, 'Bytes are not shown'],
    [/change what is on the wire$/, 'Flags change what is on the wire'],
    [/are not shown$/, 'Bytes are not shown'],
    [/is not shown$/, 'A reply is not shown'],
];

function takeComment(line, number) {
    const text = line.trimEnd();
    let what;
    if (text === ' no packets') what = 'No packets are in the recording';
    else if (/^ line [0-9]+: a transfer failed with /.test(text)) what = 'A transfer failed';
    else if (/^ [0-9]+ lines? of /.test(text)) what = 'Lines were passed over';
    else if (/^ line [0-9]+: /.test(text)) what = LACKS.find(([pattern]) => pattern.test(text))?.[1];
    if (what === undefined) return;
    const found = lost.find((it) => it.what === what);
    if (found !== undefined) found.count++;
    else lost.push({ what, count: 1, line: number, text: text.slice(1) });
}

capture.scanned = 0;

// ---- questions of the page

const lower = (byte) => (byte >= 65 && byte <= 90 ? byte | 32 : byte);

// The rows whose line in `pmb log` has a text, whichever case its letters have.
function rowsWith(text) {
    const wanted = [...text.toLowerCase()].map((letter) => letter.charCodeAt(0) & 255);
    const first = wanted[0];
    const upper = first >= 97 && first <= 122 ? first - 32 : first;
    const rows = new Column(Uint32Array);
    let row = 0;
    let rest = new Uint8Array(0);
    for (let number = 0; number < log.parts.length; number++) {
        let bytes = log.bytes(number);
        if (rest.length > 0) bytes = joined(rest, bytes);
        const last = bytes.lastIndexOf(LF);
        let found = false;
        for (let i = 0; i <= last; i++) {
            const byte = bytes[i];
            if (byte === LF) {
                row++;
                found = false;
            } else if (!found && (byte === first || byte === upper)) {
                let n = 1;
                while (n < wanted.length && lower(bytes[i + n]) === wanted[n]) n++;
                if (n === wanted.length) {
                    rows.push(row);
                    found = true;
                }
            }
        }
        rest = bytes.slice(last + 1);
    }
    return rows.items.subarray(0, rows.length);
}

// The rows of a device, a command, a kind, with a text, in a range.
function filtered({ device, code, kind, text, from, to }) {
    const rows = new Column(Uint32Array);
    const { device: devices, code: codes, kind: kinds, flags, value, length } = {
        device: columns.device.items,
        code: columns.code.items,
        kind: columns.kind.items,
        flags: columns.flags.items,
        value: columns.series.items,
        length: columns.kind.length,
    };
    const wanted = KINDS.indexOf(kind);
    const test = (i) =>
        (device === null || devices[i] === device) &&
        (code === null || codes[i] === code) &&
        (kind === '' || kinds[i] === wanted || (kind === 'problem' && flags[i] & PROBLEM) ||
            (kind === 'value' && value[i] !== 65535) || (kind === 'fault' && flags[i] & FAULT));
    const first = Math.max(0, from ?? 0);
    const last = Math.min(length, to ?? length);
    if (text !== '') {
        for (const i of rowsWith(text)) if (i >= first && i < last && test(i)) rows.push(i);
    } else {
        for (let i = first; i < last; i++) if (test(i)) rows.push(i);
    }
    return rows.items.slice(0, rows.length);
}

// The text of the capture around the packet of a row, with the place of the row's first event in it.
function around(object) {
    const start = capture.start(object.line - 1) + object.column - 1;
    const from = Math.max(0, start - 65536);
    let bytes = capture.slice(from, start + 131072);
    let skipped = from;
    if (from > 0) {
        // (the text before the first line end may be a comment)
        const end = bytes.indexOf(LF);
        if (end >= 0 && from + end < start) {
            bytes = bytes.subarray(end + 1);
            skipped += end + 1;
        }
    }
    return { text: latin1.decode(bytes), place: start - skipped };
}

const answers = {
    // The objects and lines of a block of rows.
    block({ number }) {
        return { json: json.block(number), log: log.block(number) };
    },
    filter(question) {
        return { rows: filtered(question) };
    },
    packet({ row }) {
        const block = Math.floor(row / BLOCK);
        const line = json.block(block)[row % BLOCK];
        if (line === undefined) return null;
        const object = JSON.parse(line);
        const words = log.block(block)[row % BLOCK] ?? '';
        return { object, line, log: words, around: around(object) };
    },
    // The capture whole, as a Blob.
    capture() {
        return { blob: new Blob(capture.parts.map(({ blob }) => blob)) };
    },
    // Takes a capture that stands in a file, piece by piece, so that what comes meanwhile need not wait.
    async keep({ blob }) {
        const piece = 1 << 20;
        for (let at = 0; at < blob.size; at += piece) {
            const part = blob.slice(at, at + piece);
            const bytes = new Uint8Array(reader.readAsArrayBuffer(part));
            capture.add(bytes, part);
            takeCapture(bytes);
            await new Promise((resolve) => setTimeout(resolve, 0));
        }
        self.postMessage({ lost });
        return {};
    },
    // The row at which a line of the capture comes, for jumps.
    rowOfLine({ line }) {
        let low = 0;
        let high = Math.ceil(columns.kind.length / BLOCK);
        const lineOf = (block) => JSON.parse(json.block(block)[0] ?? '{}').line ?? Infinity;
        while (high - low > 1) {
            const middle = (low + high) >> 1;
            if (lineOf(middle) <= line) low = middle;
            else high = middle;
        }
        const lines = json.block(low).map((it) => JSON.parse(it).line ?? Infinity);
        const index = lines.findIndex((it) => it >= line);
        return { row: Math.min(columns.kind.length - 1, low * BLOCK + (index < 0 ? BLOCK : index)) };
    },
};

const streams = { json, log };

// What comes from a runner: parts, columns of rows, bytes of the capture, and the end.
function take(stream, data) {
    if (data.part !== undefined) {
        streams[stream].put(data.part);
    } else if (data.columns !== undefined) {
        for (const [name, column] of Object.entries(columns)) column.add(data.columns[name]);
    } else if (data.bytes !== undefined) {
        const bytes = new Uint8Array(data.bytes);
        capture.add(bytes);
        takeCapture(bytes);
    } else {
        if (stream === 'capture') self.postMessage({ lost });
        self.postMessage({ streamEnd: stream, status: data.end, error: data.error });
    }
}

self.onmessage = async ({ data, ports }) => {
    if (data.stream !== undefined) {
        ports[0].onmessage = ({ data: piece }) => take(data.stream, piece);
        return;
    }
    let answer = null;
    try {
        answer = await answers[data.ask](data);
    } catch (mistake) {
        answer = { mistake: mistake.message };
    }
    self.postMessage({ answer, id: data.id });
};
