// ---- what was opened: a recording, and which of several files it is

class Recording {
    // `found` is the source that its first bytes, `head`, show.
    constructor(blob, name, found, head, more = {}) {
        this.blob = blob;
        this.name = name;
        this.found = found;
        this.source = found;
        this.bus = '';
        this.rate = found === 'sigrok' ? rateOf(head) : '';
        this.unshifted = false;
        Object.assign(this, more);
    }

    // The words that import it.
    get words() {
        const isSigrok = this.source === 'sigrok';
        return [
            'import', this.source, ...(this.bus ? ['--bus', this.bus] : []),
            ...(isSigrok && this.rate ? ['--rate', this.rate] : []),
            ...(isSigrok && this.unshifted ? ['--unshifted'] : []),
        ];
    }
}

// The first bytes of a file, as characters of a byte each.
async function headOf(blob) {
    return new TextDecoder('latin1').decode(await blob.slice(0, 1 << 18).arrayBuffer());
}

// Whether a file is a profile and nothing else.
function isProfileFile(name, head) {
    if (split(head)) return false;
    return /\.toml$/i.test(name) ||
        (isProfile(head) && sourceOf(head) === 'capture' && !/^\s*S [0-9a-f]{2} /m.test(head));
}

// Of files in any order: the last profile, the first recording, and the names of other recordings.
async function sortFiles(files) {
    const found = { profile: null, recording: null, others: [] };
    for (const file of files) {
        if (isProfileFile(file.name, await headOf(file))) {
            found.profile = { text: await file.text(), name: file.name, origin: 'file' };
        } else if (found.recording === null) {
            found.recording = file;
        } else {
            found.others.push(file.name);
        }
    }
    return found;
}
