'use strict';
// What the workers share: columns, and the packing of texts.

const BLOCK = 128;
const LF = 10;
const KINDS = ['write', 'read', 'call', 'refused', 'alert', 'other', 'refusal', 'bad_token'];
const NONE = 255;
const PROBLEM = 2; // a row that needs a look: a NACK, a protocol error, a bad word, an alert, a fault
const FAULT = 4; // a row of a status register with a bit that is a fault
const latin1 = new TextDecoder('latin1');

// A typed array that grows.
class Column {
    constructor(type) {
        this.type = type;
        this.items = new type(1024);
        this.length = 0;
    }

    push(item) {
        if (this.length === this.items.length) {
            const larger = new this.type(this.length * 2);
            larger.set(this.items);
            this.items = larger;
        }
        this.items[this.length++] = item;
    }

    add(items) {
        const length = this.length + items.length;
        if (length > this.items.length) {
            const larger = new this.type(Math.max(length, Math.ceil(this.items.length * 1.5)));
            larger.set(this.items.subarray(0, this.length));
            this.items = larger;
        }
        this.items.set(items, this.length);
        this.length = length;
    }
}


function joined(one, two) {
    const both = new Uint8Array(one.length + two.length);
    both.set(one);
    both.set(two, one.length);
    return both;
}

const hex = (bytes, at) => (digit(bytes[at]) << 4) | digit(bytes[at + 1]);
const digit = (byte) => (byte > 64 ? (byte | 32) - 87 : byte - 48);

// How many lines end in bytes, and where those begin in it whose number, counted on, is one of 128.
function marksIn(bytes, before) {
    const marks = [];
    let count = before;
    for (let i = bytes.indexOf(LF); i >= 0; i = bytes.indexOf(LF, i + 1)) {
        count++;
        if (count % BLOCK === 0) marks.push(i + 1);
    }
    return { lines: count - before, marks };
}

// ---- packing, as blocks of LZ4: texts of a recording repeat themselves

const LEAST = 4;
const places = new Int32Array(1 << 14);

// Writes a length that did not fit into its four bits.
function putLength(out, at, length) {
    let left = length - 15;
    for (; left >= 255; left -= 255) out[at++] = 255;
    out[at++] = left;
    return at;
}

// Writes a sequence: bytes as they are, and then, unless it is the last one, some that came before.
function putSequence(out, at, bytes, from, to, distance, length) {
    const plain = to - from;
    const head = at++;
    if (plain >= 15) at = putLength(out, at, plain);
    out.set(bytes.subarray(from, to), at);
    at += plain;
    if (length > 0) {
        out[at++] = distance & 255;
        out[at++] = distance >> 8;
        if (length - LEAST >= 15) at = putLength(out, at, length - LEAST);
    }
    out[head] = (Math.min(plain, 15) << 4) | (length > 0 ? Math.min(length - LEAST, 15) : 0);
    return at;
}

function pack(bytes) {
    const size = bytes.length;
    const out = new Uint8Array(size + (size >> 7) + 32);
    let at = 0;
    let from = 0;
    let i = 0;
    places.fill(-1);
    while (i < size - 12) {
        const word = bytes[i] | (bytes[i + 1] << 8) | (bytes[i + 2] << 16) | (bytes[i + 3] << 24);
        const slot = Math.imul(word, 0x9e3779b1) >>> 18;
        const before = places[slot];
        places[slot] = i;
        if (before >= 0 && i - before < 65536 && bytes[before] === bytes[i] && bytes[before + 1] === bytes[i + 1] &&
            bytes[before + 2] === bytes[i + 2] && bytes[before + 3] === bytes[i + 3]) {
            let length = LEAST;
            while (i + length < size - 5 && bytes[before + length] === bytes[i + length]) length++;
            at = putSequence(out, at, bytes, from, i, i - before, length);
            i += length;
            from = i;
        } else {
            i += 1 + ((i - from) >> 6);
        }
    }
    at = putSequence(out, at, bytes, from, size, 0, 0);
    return out.subarray(0, at);
}

function unpack(packed, size) {
    const bytes = new Uint8Array(size);
    let at = 0;
    let to = 0;
    while (at < packed.length) {
        const head = packed[at++];
        let plain = head >> 4;
        if (plain === 15) for (let more = 255; more === 255;) plain += more = packed[at++];
        bytes.set(packed.subarray(at, at + plain), to);
        at += plain;
        to += plain;
        if (at >= packed.length) break;
        const distance = packed[at] | (packed[at + 1] << 8);
        at += 2;
        let length = head & 15;
        if (length === 15) for (let more = 255; more === 255;) length += more = packed[at++];
        length += LEAST;
        if (distance >= length) bytes.copyWithin(to, to - distance, to - distance + length);
        else for (let i = 0; i < length; i++) bytes[to + i] = bytes[to + i - distance];
        to += length;
    }
    return bytes;
}
