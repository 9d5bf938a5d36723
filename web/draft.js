// ---- the first profile of a recording that has none: what `pmb scan` makes of it
//
// Of a long capture its first part is scanned first, so that rows are seen at once; the whole is scanned
// meanwhile. A profile of this kind has `words`, those that the recording is imported with, and while it
// is that of a first part `part`, its bytes.

const FIRST_PART = 2 << 20;

// Where the first part of a capture ends: after the last whole line in so many bytes, or, of very long
// lines, after the last blank; the length of the capture, if that is no more.
async function firstPart(capture) {
    if (capture.size <= FIRST_PART) return capture.size;
    const bytes = new Uint8Array(await capture.slice(0, FIRST_PART).arrayBuffer());
    let end = bytes.lastIndexOf(10);
    if (end < FIRST_PART / 2) {
        for (end = FIRST_PART - 1; end > 0 && bytes[end] > 32; end--);
    }
    return end > 0 ? end + 1 : FIRST_PART;
}

// The profile that `pmb scan` writes of the first `size` bytes of a capture, or the `error` that it has.
async function scanned(capture, size, words, more) {
    const part = size < capture.size;
    const { text, status, error } = await program(['scan'], [part ? capture.slice(0, size) : capture], more);
    if (status > 1 || text === '') return { error: error.trim() || 'pmb scan wrote nothing' };
    return { text, name: 'scan.toml', origin: 'scan', words, ...(part ? { part: size } : {}) };
}

// A profile of `pmb scan` without its comments, which count packets: what the program reads of it. No
// text in such a profile has the sign of a comment.
const tablesOf = (text) => text.split('\n').map((line) => line.replace(/\s*#.*$/, '')).filter((line) => line !== '').join('\n');

// Where a profile of `pmb scan` says that it read no further, or undefined.
const readUpTo = (text) => /^# (bad token at byte [0-9]+)/m.exec(text)?.[1];

// Where a profile comes from, in words.
function originText({ origin, part }) {
    if (part !== undefined) return `made by pmb scan of the first ${sizeText(part)} of the recording`;
    return {
        file: 'a file', part: 'a part of examples/profiles', scan: 'made by pmb scan of the recording',
        sample: 'the sample profile', edited: 'edited here', capture: 'from the recording', example: 'of the example',
    }[origin];
}
