// ---- the events of a packet, drawn as they are on the wire

// The events of a text, each with its place: START, STOP, ACK, NACK and bytes. What is no token is
// a word of its own.
function eventsOf(text) {
    const plain = text.replace(/#[^\n]*/g, (comment) => ' '.repeat(comment.length));
    const events = [];
    for (const { 0: word, index: place } of plain.matchAll(/\S+/g)) {
        if (/^[0-9a-fA-F]{2}$/.test(word)) events.push({ kind: 'byte', byte: parseInt(word, 16), word, place });
        else if (/^[SPAN]$/.test(word)) events.push({ kind: word, word, place });
        else events.push({ kind: 'word', word, place });
    }
    return events;
}

// The events of the packet that has the event at a place: from its START, or what comes after the STOP
// before it, up to its STOP.
function packetAround(text, place, most = 1600) {
    const events = eventsOf(text);
    let at = events.findIndex((event) => event.place >= place);
    if (at < 0) at = events.length;
    let from = at;
    while (from > 0 && events[from - 1].kind !== 'P') from--;
    let to = at;
    while (to < events.length && events[to].kind !== 'P') to++;
    return { events: events.slice(from, Math.min(to + 1, from + most)), target: at - from };
}

// Says of each event who drives it, and what a byte is.
function explained(events, object) {
    let leg = 'none';
    let first = false;
    let second = false;
    let starts = 0;
    const bytes = [];
    for (const event of events) {
        if (event.kind === 'S') {
            event.driver = 'host';
            event.label = starts++ === 0 ? 'S' : 'Sr';
            first = true;
        } else if (event.kind === 'P') {
            event.driver = 'host';
            event.label = 'P';
        } else if (event.kind === 'byte') {
            if (first) {
                leg = event.byte & 1 ? 'read' : 'write';
                event.driver = 'host';
                event.role = `${hexByte(event.byte >> 1)} ${leg}`;
                event.address = true;
                second = leg === 'write';
                first = false;
            } else {
                event.driver = leg === 'read' ? 'device' : 'host';
                event.role = second ? 'command' : 'data';
                event.code = second;
                second = false;
            }
            event.leg = leg;
            event.legNumber = starts;
            bytes.push(event);
        } else if (event.kind === 'A' || event.kind === 'N') {
            const before = bytes[bytes.length - 1];
            event.driver = before && before.leg === 'read' && !before.address ? 'host' : 'device';
            event.label = event.kind;
            if (before) before.answer = event;
        }
    }
    const data = bytes.filter((event) => event.role === 'data');
    if (object) nameData(data, object, bytes);
    return { events, bytes };
}

// The roles of data bytes by what the program says of the packet.
function nameData(data, object, bytes) {
    let rest = data;
    if (object.reason === 'BadPec') {
        const wrong = data.find((event) => event.target);
        if (wrong) {
            wrong.role = 'error code';
            wrong.pec = 'wrong';
        }
        return;
    }
    if (object.pec === true || typeof object.pec === 'string') {
        const last = object.parts && object.part < object.parts
            ? data.filter((event) => event.legNumber === object.part).pop()
            : bytes[bytes.length - 1];
        if (last) {
            last.role = object.pec === 'wrong' ? 'error code, wrong' : 'error code';
            last.pec = object.pec === 'wrong' ? 'wrong' : 'right';
        }
        rest = data.filter((event) => event !== last);
    }
    const sides = {
        write: object.kind === 'call' ? object.sent : object.bytes,
        read: object.kind === 'call' ? object.reply : object.bytes,
    };
    for (const [leg, text] of Object.entries(sides)) {
        if (text === undefined || (object.kind === 'read' && leg === 'write')) continue;
        const side = rest.filter((event) => event.leg === leg && (!object.parts || event.legNumber === object.part));
        if (side.length === text.length / 2 + 1) {
            side[0].role = 'count';
            side.shift();
        }
        if (object.value !== undefined && side.length === 2) {
            side[0].role = 'low';
            side[1].role = 'high';
        }
    }
}

const BIT = 7;
const ACK = 15;
const EDGE = 15;
const HIGH = 27;
const LOW = 40;
const ROW = 66;

// Draws events as the data line goes, in rows of a width. `target` is the event that stands out.
function wire(explanation, width, target = -1, most = 96) {
    const rows = [];
    let row = [];
    let used = 0;
    const put = (item) => {
        if (used + item.width > width && row.length > 0) {
            rows.push(row);
            row = [];
            used = 0;
        }
        row.push({ ...item, at: used });
        used += item.width;
    };
    const { events } = explanation;
    let shown = 0;
    let i = 0;
    for (; i < events.length && shown < most; i++, shown++) {
        const event = events[i];
        const marked = i === target;
        if (event.kind === 'byte') {
            const answer = events[i + 1]?.kind === 'A' || events[i + 1]?.kind === 'N' ? events[i + 1] : null;
            put({
                width: BIT * 8 + (answer ? ACK : 0), event, answer, marked,
                answerMarked: answer && i + 1 === target,
            });
            if (answer) i++;
        } else {
            put({ width: event.kind === 'word' ? 12 + event.word.length * 7 : EDGE, event, marked });
        }
    }
    if (row.length > 0) rows.push(row);
    const picture = drawn('svg', {
        class: 'wire', width, height: Math.max(1, rows.length) * ROW, role: 'img',
        'aria-label': events.slice(0, most).map((event) => event.word).join(' '),
    });
    rows.forEach((items, i) => {
        const group = drawn('g', { transform: `translate(0 ${i * ROW})` });
        for (const item of items) group.append(...drawItem(item));
        picture.append(group);
    });
    return { picture, left: Math.max(0, events.length - i) };
}

function drawItem({ at, width, event, answer, marked, answerMarked }) {
    const parts = [];
    const driver = event.driver ?? 'host';
    if (event.kind === 'word') {
        parts.push(drawn(
            'text',
            { x: at + width / 2, y: LOW, class: 'bad', 'text-anchor': 'middle', text: event.word },
        ));
        return parts;
    }
    if (event.kind === 'byte') {
        const wide = BIT * 8;
        const kind = event.pec === 'wrong' ? 'wrong' : event.pec === 'right' ? 'right' : driver;
        parts.push(drawn(
            'rect',
            {
                x: at + 0.5, y: 16.5, width: wide - 1, height: 46, rx: 3,
                class: `cell ${kind}${marked ? ' marked' : ''}`,
            },
        ));
        parts.push(drawn(
            'text',
            { x: at + wide / 2, y: 11, class: 'role', 'text-anchor': 'middle', text: event.role ?? '' },
        ));
        let path = '';
        for (let bit = 0; bit < 8; bit++) {
            const y = event.byte & (0x80 >> bit) ? HIGH - 5 : LOW - 4;
            path += `${bit === 0 ? 'M' : 'L'}${at + bit * BIT} ${y}H${at + (bit + 1) * BIT}`;
        }
        parts.push(drawn('path', { d: path, class: `line ${driver}` }));
        parts.push(drawn(
            'text',
            { x: at + wide / 2, y: 56, class: 'hex', 'text-anchor': 'middle', text: hexByte(event.byte) },
        ));
        if (answer) {
            const x = at + wide;
            const bad = answer.kind === 'N' && !(event.leg === 'read' && !event.address);
            parts.push(drawn(
                'rect',
                {
                    x: x + 0.5, y: 16.5, width: ACK - 1, height: 46, rx: 3,
                    class: `cell ${bad ? 'wrong' : answer.driver}${answerMarked ? ' marked' : ''}`,
                },
            ));
            const y = answer.kind === 'N' ? HIGH - 5 : LOW - 4;
            parts.push(drawn('path', { d: `M${x} ${y}H${x + ACK}`, class: `line ${bad ? 'bad' : answer.driver}` }));
            parts.push(drawn(
                'text',
                {
                    x: x + ACK / 2, y: 56, class: `hex${bad ? ' bad' : ''}`, 'text-anchor': 'middle',
                    text: answer.kind,
                },
            ));
        }
        return parts;
    }
    if (event.kind === 'S' || event.kind === 'P') {
        const [from, to] = event.kind === 'S' ? [HIGH - 5, LOW - 4] : [LOW - 4, HIGH - 5];
        parts.push(drawn(
            'path',
            { d: `M${at} ${from}H${at + EDGE / 2}V${to}H${at + EDGE}`, class: `line host${marked ? ' bad' : ''}` },
        ));
    }
    parts.push(drawn(
        'text',
        {
            x: at + EDGE / 2, y: 56,
            class: `hex edge${marked ? ' bad' : ''}`, 'text-anchor': 'middle', text: event.label ?? event.word,
        },
    ));
    return parts;
}
