// ---- the runner: a worker that runs the program once: `pmb` with its words, over the input that it is given.
//
// The module asks for its input by `read` and hands out its output by `write`; both return at once, so
// the worker hears nothing while the program runs. Who starts it ends it by `terminate`, and takes what
// was written from the port that comes with the task: as it is, or for a task that is `kept` as parts of
// text with marks. Of a task with `rows` the page also gets the columns.

const PIECE = 1 << 18;
const LAST_ERROR = 1 << 14;
const PLAIN = 48e6; // beyond so many bytes parts are packed

// Reads the input, a list of texts, byte arrays and Blobs, piece by piece.
class Input {
    constructor(parts) {
        this.parts = parts.map((part) => (typeof part === 'string' ? new TextEncoder().encode(part) : part));
        this.size = this.parts.reduce((sum, part) => sum + (part.size ?? part.length), 0);
        this.used = 0;
        this.piece = new Uint8Array(0);
        this.place = 0;
        this.reader = new FileReaderSync();
    }

    // The next bytes, at most so many: none at the end.
    next(most) {
        while (this.place === this.piece.length) {
            const part = this.parts[0];
            if (part === undefined) return this.piece.subarray(0, 0);
            this.place = 0;
            if (part instanceof Uint8Array) {
                this.piece = part;
                this.parts.shift();
            } else {
                const blob = part.slice(0, PIECE * 4);
                this.piece = new Uint8Array(this.reader.readAsArrayBuffer(blob));
                if (blob.size < part.size) this.parts[0] = part.slice(blob.size);
                else this.parts.shift();
            }
        }
        const found = this.piece.subarray(this.place, this.place + most);
        this.place += found.length;
        this.used += found.length;
        return found;
    }
}

// Hands out what is written, in pieces.
class Output {
    constructor(send) {
        this.send = send;
        this.bytes = new Uint8Array(PIECE);
        this.length = 0;
        this.last = performance.now();
    }

    put(bytes) {
        let place = 0;
        while (place < bytes.length) {
            const some = bytes.subarray(place, place + this.bytes.length - this.length);
            this.bytes.set(some, this.length);
            this.length += some.length;
            place += some.length;
            if (this.length === this.bytes.length) this.flush();
        }
        // (the first rows are to be seen at once, and those of a slow recording too)
        if (this.length > 0 && performance.now() - this.last > 100) this.flush();
    }

    flush() {
        if (this.length > 0) {
            const whole = this.bytes.slice(0, this.length).buffer;
            this.send(whole);
            this.length = 0;
        }
        this.last = performance.now();
    }
}

// Runs the module; returns its status and what it wrote on standard error.
function run(module, words, input, output, progress) {
    const errors = [];
    let memory;
    const view = (at, length) => new Uint8Array(memory.buffer, at >>> 0, length);
    const imports = {
        pmb: {
            read(at, most) {
                const found = input.next(most);
                view(at, found.length).set(found);
                progress();
                return found.length;
            },
            write(file, at, length) {
                const bytes = view(at, length);
                if (file === 1) output.put(bytes);
                else if (errors.length < LAST_ERROR) errors.push(bytes.slice());
                return length;
            },
        },
    };
    const instance = new WebAssembly.Instance(module, imports);
    memory = instance.exports.memory;
    const text = new TextEncoder().encode(['pmb', ...words].map((word) => `${word}\0`).join(''));
    const at = instance.exports.words(text.length);
    view(at, text.length).set(text);
    const status = instance.exports.start(at, text.length);
    output.flush();
    return { status, errors };
}

// Hands out parts for the keeper.
class Parts {
    constructor(sink) {
        this.sink = sink;
        this.size = 0;
        this.lines = 0;
    }

    put(bytes) {
        const { lines, marks } = marksIn(bytes, this.lines);
        const isPacked = this.size > PLAIN;
        const blob = new Blob([isPacked ? pack(bytes) : bytes]);
        this.lines += lines;
        this.size += bytes.length;
        this.sink.postMessage({ part: { blob, isPacked, size: bytes.length, lines, marks } });
    }
}

// What is done with a piece that the program wrote.
function taker(task, sink) {
    if (!task.kept) return (bytes) => sink.postMessage({ bytes }, [bytes]);
    const parts = new Parts(sink);
    return (buffer) => {
        const bytes = new Uint8Array(buffer);
        parts.put(bytes);
        if (!task.rows) return;
        takeJson(bytes);
        sendRows(sink);
    };
}

self.onmessage = ({ data: task, ports }) => {
    const sink = ports[0];
    const output = new Output(taker(task, sink));
    const said = new TextDecoder('latin1');
    let told = 0;
    try {
        const input = new Input(task.input);
        const progress = () => {
            const now = performance.now();
            if (now - told < 50) return;
            told = now;
            self.postMessage({ used: input.used, size: input.size });
        };
        const { status, errors } = run(task.module, task.words, input, output, progress);
        const error = errors.map((bytes) => said.decode(bytes)).join('');
        if (task.rows) {
            state.ended = state.changed = true;
            sendRows(sink);
        }
        sink.postMessage({ end: status, error });
        self.postMessage({ end: status, error });
    } catch (mistake) {
        // A trap of the module, or a file that can't be read any more.
        const error = `pmb: the run was broken off: ${mistake.message}\n`;
        sink.postMessage({ end: 125, error });
        self.postMessage({ end: 125, error });
    }
};
