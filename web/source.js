// ---- what kind of recording a text is

const SOURCES = {
    capture: 'capture text',
    sigrok: 'sigrok or PulseView',
    saleae: 'Saleae Logic 2',
    beagle: 'Total Phase Data Center',
    kernel: 'Linux, i2c events',
    smbus: 'Linux, smbus events',
};

// The source of a recording by its first lines. A capture has nothing but its own words in lines that
// are no comments.
function sourceOf(text) {
    const lines = text.replace(/^\ufeff/, '').split('\n').slice(0, 4000);
    const some = (pattern) => lines.some((line) => pattern.test(line));
    if (some(/\bi2c_(write|read|reply|result): i2c-[0-9]+ /)) return 'kernel';
    if (some(/\bsmbus_(write|read|reply|result): i2c-[0-9]+ /)) return 'smbus';
    if (lines.some((line) => /(^|,)"?type"?(,|\r?$)/.test(line) && /(^|,)"?ack"?(,|\r?$)/.test(line))) return 'saleae';
    if (lines.some((line) => ['Index', 'S/P', 'Addr', 'Record', 'Data'].every((name) => line.includes(name)))) return 'beagle';
    const words = lines.filter((line) => !/^\s*(#|$)/.test(line)).slice(0, 200);
    if (words.some((line) => /^\s*S(\s+[0-9a-fA-F]{2})?(\s|$)/.test(line))) return 'capture';
    if (some(/^([0-9]+-[0-9]+ )?[^:]+: .*\b(Start|Stop|ACK|NACK|Address (write|read)|Data (write|read))\b/i)) return 'sigrok';
    if (/^# tracer:/.test(text)) return 'kernel';
    return 'capture';
}

// Whether a text is a profile: TOML with a device.
const isProfile = (text) => /^\s*\[\[device\]\]/m.test(text) || /^\s*device\s*=\s*\[/m.test(text);

// A text with a profile in front: the profile, a line `%%`, and the rest.
function split(text) {
    const found = /^%%\r?\n/m.exec(text);
    return found === null ? null : { profile: text.slice(0, found.index), rest: found.index + found[0].length };
}

// The samples of a second that a recording of sigrok says, if it does.
const rateOf = (text) => /samplerate[=: ]+([0-9]+)/i.exec(text)?.[1] ?? '';
