// ---- an example: 45 seconds on a bench, drawn by a rule, so that it is always the same

const BENCH = `# A bench with two converters of two outputs each and a supply. An example, and drawn.

[[device]]                  # output 0 gives 1.2 V, output 1 3.3 V
address = 0x40
name = "U3 CORE/IO"
pec = "optional"
pages = 2
vout_mode = [0x14, 0x13]    # steps of 2^-12 V and of 2^-13 V

[[device]]                  # output 0 gives 0.85 V, output 1 1.8 V
address = 0x42
name = "U4 DDR"
pec = "optional"
pages = 2
vout_mode = 0x14

[[device]]
address = 0x58
name = "PSU"
pec = "off"
vout_mode = 0x17
`;

function benchCapture() {
    const lines = [];
    let seed = 20251129;
    const random = () => {
        seed = (seed + 0x6d2b79f5) | 0;
        let it = Math.imul(seed ^ (seed >>> 15), seed | 1);
        it ^= it + Math.imul(it ^ (it >>> 7), it | 61);
        return ((it ^ (it >>> 14)) >>> 0) / 4294967296;
    };
    const noise = (size) => (random() + random() - 1) * size;
    let now = 0;
    const errorCode = (bytes) => {
        let code = 0;
        for (const byte of bytes) {
            code ^= byte;
            for (let i = 0; i < 8; i++) code = code & 0x80 ? ((code << 1) ^ 7) & 255 : code << 1;
        }
        return code;
    };
    const put = (text, events) => {
        lines.push(`# ${now.toFixed(6)} s`, text);
        now += events * 4.7e-5 + 2e-4 + random() * 3e-4;
    };
    const write = (device, code, bytes) => {
        const sent = [device.address << 1, code, ...bytes];
        if (device.pec) sent.push(errorCode(sent));
        put(`S ${sent.map((byte) => `${hexByte(byte)} A`).join(' ')} P`, sent.length);
    };
    const read = (device, code, bytes, wrong = 0) => {
        const start = [device.address << 1, code];
        const reply = [...bytes];
        const back = (device.address << 1) | 1;
        if (device.pec) reply.push(errorCode([...start, back, ...reply]) ^ wrong);
        const last = reply.map((byte, i) => `${hexByte(byte)} ${i + 1 < reply.length ? 'A' : 'N'}`).join(' ');
        put(
            `S ${start.map((byte) => `${hexByte(byte)} A`).join(' ')} S ${hexByte(back)} A ${last} P`,
            3 + reply.length,
        );
    };
    const word = (value) => [value & 255, (value >> 8) & 255];
    const linear16 = (value, exponent) => word(Math.round(value * 2 ** -exponent));
    const linear11 = (value) => {
        let exponent = -16;
        while (Math.abs(Math.round(value * 2 ** -exponent)) > 1023) exponent++;
        return word(((exponent & 31) << 11) | (Math.round(value * 2 ** -exponent) & 0x7ff));
    };
    const within = (from, to) => now >= from && now < to;
    const devices = [
        { address: 0x40, pec: true, exponents: [-12, -13], volts: [1.2, 3.3], amperes: [9, 6], heat: 48 },
        { address: 0x42, pec: true, exponents: [-12, -12], volts: [0.85, 1.8], amperes: [3.2, 6], heat: 53 },
    ];
    const supply = { address: 0x58, pec: false };
    const silent = [7.46, 12.02, 26.81, 26.96, 27.11, 41.3];
    let damaged = 22.4;
    let alert = true;

    // The host begins by reading how outputs are read, and their limits.
    for (const device of devices) {
        for (const page of [0, 1]) {
            const exponent = device.exponents[page];
            const volts = device.volts[page];
            write(device, 0x00, [page]);
            read(device, 0x20, [exponent & 31]);
            read(device, 0x21, linear16(volts, exponent));
            read(device, 0x40, linear16(volts * 1.1, exponent));
            read(device, 0x44, linear16(volts * 0.9, exponent));
            read(device, 0x46, linear11(device.amperes[page] * 2));
            read(device, 0x51, linear11(70));
        }
    }
    read(supply, 0x20, [0x17]);

    for (let cycle = 0; cycle < 900; cycle++) {
        now = Math.max(now, 0.1 + cycle * 0.05);
        for (const device of devices) {
            if (device.address === 0x42 && silent.length > 0 && now >= silent[0]) {
                silent.shift();
                put(`S ${hexByte(device.address << 1)} N P`, 1);
                continue;
            }
            for (const page of [0, 1]) {
                const short = device.address === 0x40 && page === 1 && (within(14.1, 14.9) || within(31.3, 31.7));
                const volts = device.volts[page] * (short ? 0.871 : 1) * (1 + 0.004 * Math.sin(now / 1.9 + page * 2)) + noise(0.004);
                const amperes = device.amperes[page] * (short ? 1.9 : 1) * (1 + 0.1 * Math.sin(now / 3 + device.address)) + noise(0.3);
                const climb = device.address === 0x42 ? 18.5 / (1 + Math.exp((28 - now) / 3)) : 0;
                const heat = device.heat + page + climb + 1.2 * Math.sin(now / 6) + (short ? 2 : 0) + noise(0.4);
                const hot = heat > 70.2;
                write(device, 0x00, [page]);
                read(device, 0x8b, linear16(volts, device.exponents[page]));
                read(device, 0x8c, linear11(amperes));
                read(device, 0x8d, linear11(heat));
                const wrong = damaged > 0 && now >= damaged && device.address === 0x40 ? 0x10 : 0;
                if (wrong) damaged = 0;
                read(device, 0x79, word((short ? 0x8800 : 0) | (hot ? 0x0004 : 0)), wrong);
                if (short) read(device, 0x7a, [0x10]);
                if (hot) read(device, 0x7d, [0x40]);
                if (short && alert) {
                    alert = false;
                    const bytes = [0x19, device.address << 1];
                    put(`S 19 A ${hexByte(bytes[1])} A ${hexByte(errorCode(bytes))} N P`, 3);
                }
            }
        }
        const dip = within(14.1, 14.9) ? 1.1 : within(31.3, 31.7) ? 0.8 : 0;
        read(supply, 0x88, linear11(48 - dip + noise(0.15)));
        read(supply, 0x8b, linear16(12 - dip / 20 + noise(0.02), -9));
        read(supply, 0x8c, linear11(6.2 + dip * 2 + noise(0.2)));
        read(supply, 0x90, linear11(4200 + 300 * Math.sin(now / 7) + noise(40)));
        read(supply, 0x79, [0, 0]);
    }
    return `${lines.join('\n')}\n`;
}
