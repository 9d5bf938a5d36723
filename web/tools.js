// ---- what all parts of the page use

// Makes an element. `what` has its properties: `class`, `text`, `title`, handlers as `onclick`, and any
// other word as an attribute. Text is set as text: markup never comes from data.
function make(tag, what = {}, ...children) {
    const element = document.createElement(tag);
    for (const [name, value] of Object.entries(what)) {
        if (value === undefined || value === null || value === false) continue;
        if (name === 'text') element.textContent = value;
        else if (name === 'class') element.className = value;
        else if (name.startsWith('on')) element.addEventListener(name.slice(2), value);
        else element.setAttribute(name, value === true ? '' : value);
    }
    element.append(...children.filter((child) => child !== null && child !== undefined && child !== false));
    return element;
}

const SVG = 'http://www.w3.org/2000/svg';

function drawn(tag, what = {}, ...children) {
    const element = document.createElementNS(SVG, tag);
    for (const [name, value] of Object.entries(what)) {
        if (name === 'text') element.textContent = value;
        else if (value !== undefined) element.setAttribute(name, value);
    }
    element.append(...children);
    return element;
}

// The signs of the page, drawn: paths in a square of 16.
const SIGNS = {
    open: 'M2 13V3.5h4l1.5 1.8H14V13z',
    device: 'M4.5 4.5h7v7h-7zM6.5 2v2.5M9.5 2v2.5M6.5 11.5V14M9.5 11.5V14M2 6.5h2.5M2 9.5h2.5M11.5 6.5H14M11.5 9.5H14',
    help: 'M6 6a2 2 0 1 1 2.9 1.8c-.6.3-.9.7-.9 1.4M8 11.4v.6',
    plus: 'M8 3.5v9M3.5 8h9',
    minus: 'M3.5 8h9',
    fit: 'M2 5V2.5h3M11 2.5h3V5M14 11v2.5h-3M5 13.5H2V11M5 8h6M5 8l1.5-1.5M5 8l1.5 1.5M11 8L9.5 6.5M11 8l-1.5 1.5',
    left: 'M10 3.5L5.5 8l4.5 4.5',
    right: 'M6 3.5L10.5 8 6 12.5',
    down: 'M3.5 6L8 10.5 12.5 6',
    close: 'M4 4l8 8M12 4l-8 8',
    save: 'M8 2.5v7.5M5 7.5L8 10.5 11 7.5M3 13.5h10',
    filter: 'M2.5 3.5h11L9.5 8.5v4l-3 1v-5z',
    play: 'M5 3.5v9l7.5-4.5z',
};

function sign(name) {
    return drawn(
        'svg',
        { viewBox: '0 0 16 16', class: 'sign', 'aria-hidden': 'true' }, drawn('path', { d: SIGNS[name] }),
    );
}

function button(text, what, name) {
    const made = make('button', { type: 'button', ...what });
    if (name) made.append(sign(name));
    if (text) made.append(make('span', { text }));
    return made;
}

const hexByte = (byte) => byte.toString(16).padStart(2, '0');

// A whole number with thin spaces between groups of three digits.
const grouped = (number) => String(number).replace(/\B(?=([0-9]{3})+$)/g, '\u202f');

const counted = (number, one, many = `${one}s`) => `${grouped(number)} ${number === 1 ? one : many}`;

// A length of time, rounded, in the unit that suits it.
function lengthText(seconds) {
    const size = Math.abs(seconds);
    const [scale, unit] = size >= 1 || size === 0 ? [1, 's'] : size >= 1e-3 ? [1e3, 'ms'] : size >= 1e-6 ? [1e6, 'µs'] : [1e9, 'ns'];
    if (size >= 600) {
        const whole = Math.floor(size);
        const parts = [Math.floor(whole / 3600), Math.floor(whole / 60) % 60, whole % 60];
        return `${seconds < 0 ? '-' : ''}${parts[0] > 0 ? `${parts[0]} h ` : ''}${parts[1]} min ${parts[2]} s`;
    }
    return `${Number((seconds * scale).toPrecision(4))} ${unit}`;
}

// A number with at most so many digits that count.
const shortNumber = (number, digits = 6) => {
    const text = String(Number(number.toPrecision(digits)));
    return text.includes('e') ? number.toPrecision(digits) : text;
};

const UNITS = { degC: '°C', mOhm: 'mΩ', 'mV/us': 'mV/µs' };
const unitText = (unit) => UNITS[unit] ?? unit;
const withUnit = (text, unit) => (unit ? `${text} ${unitText(unit)}` : text);

const sizeText = (bytes) =>
    bytes >= 1e9 ? `${(bytes / 1e9).toFixed(2)} GB` : bytes >= 1e6 ? `${(bytes / 1e6).toFixed(1)} MB`
        : bytes >= 1e3 ? `${(bytes / 1e3).toFixed(1)} KB` : `${bytes} B`;

// Lets a browser save a Blob under a name.
function save(blob, name) {
    const link = make('a', { href: URL.createObjectURL(blob), download: name });
    document.body.append(link);
    link.click();
    link.remove();
    setTimeout(() => URL.revokeObjectURL(link.href), 60000);
}

// The first place in a sorted list of rows whose key is not below a value.
function lowerBound(length, key, value) {
    let low = 0;
    let high = length;
    while (low < high) {
        const middle = (low + high) >> 1;
        if (key(middle) < value) low = middle + 1;
        else high = middle;
    }
    return low;
}

// A list of numbers that grows.
class Growing {
    constructor(type) {
        this.items = new type(1024);
        this.length = 0;
    }

    push(item) {
        if (this.length === this.items.length) this.room(this.length * 2);
        this.items[this.length++] = item;
    }

    add(items) {
        const length = this.length + items.length;
        if (length > this.items.length) this.room(Math.max(length, Math.ceil(this.items.length * 1.5)));
        this.items.set(items, this.length);
        this.length = length;
    }

    room(size) {
        const larger = new this.items.constructor(size);
        larger.set(this.items.subarray(0, this.length));
        this.items = larger;
    }
}

// Calls a function once before the next picture, however often it is asked for.
function beforePicture(call) {
    let asked = false;
    return () => {
        if (asked) return;
        asked = true;
        requestAnimationFrame(() => {
            asked = false;
            call();
        });
    };
}

// Calls a function when nothing was asked for some time.
function settled(call, delay) {
    let timer = 0;
    return (...words) => {
        clearTimeout(timer);
        timer = setTimeout(() => call(...words), delay);
    };
}

const colour = (name) => getComputedStyle(document.documentElement).getPropertyValue(`--${name}`).trim();
