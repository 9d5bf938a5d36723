// Runs the program's module, as web/runner.js does, for .ci/web: jobs come as lines of JSON, and for each
// a line goes back.
//
//   node web_module.js MODULE
//
// A job has `words`, `input` (base64), `cut` (a number from which the sizes of reads are drawn, or 0 for
// whole reads), and may have `failing` (`read` or `write`, each of which fails after so many calls as
// `after` says) and `pages` (memory's greatest number of pages).

'use strict';
const fs = require('fs');
const readline = require('readline');

const code = fs.readFileSync(process.argv[2]);

// The module with a limit of its memory, which stands in its section 5.
function limited(bytes, pages) {
    const number = (at) => {
        let value = 0;
        for (let shift = 0; ; shift += 7) {
            const byte = bytes[at++];
            value |= (byte & 127) << shift;
            if (byte < 128) return [value, at];
        }
    };
    const spelled = (value) => {
        const out = [];
        do {
            out.push((value & 127) | (value > 127 ? 128 : 0));
            value >>= 7;
        } while (value > 0);
        return out;
    };
    for (let at = 8; at < bytes.length;) {
        const [size, begin] = number(at + 1);
        if (bytes[at] === 5) {
            const [least] = number(begin + 2);
            const section = [1, 1, ...spelled(least), ...spelled(Math.max(least, pages))];
            return Buffer.concat([bytes.subarray(0, at), Buffer.from([5, ...spelled(section.length), ...section]), bytes.subarray(begin + size)]);
        }
        at = begin + size;
    }
    throw new Error('the module has no memory');
}

const whole = new WebAssembly.Module(code);
const modules = new Map([[0, whole]]);
const imports = WebAssembly.Module.imports(whole).map((it) => `${it.module}.${it.name}`).sort().join();
const exported = WebAssembly.Module.exports(whole).map((it) => it.name).sort().join();

function run(job) {
    const pages = job.pages ?? 0;
    if (!modules.has(pages)) modules.set(pages, new WebAssembly.Module(limited(code, pages)));
    const input = Buffer.from(job.input, 'base64');
    let place = 0;
    let seed = job.cut;
    let calls = 0;
    const out = { 1: [], 2: [] };
    let memory;
    const fails = (kind) => job.failing === kind && calls++ >= job.after;
    const instance = new WebAssembly.Instance(modules.get(pages), {
        pmb: {
            read(at, most) {
                if (fails('read')) return -1;
                let size = Math.min(most, input.length - place);
                if (seed > 0 && size > 0) {
                    seed = (Math.imul(seed, 1103515245) + 12345) >>> 0;
                    size = 1 + ((seed >>> 16) % Math.min(size, 97));
                }
                new Uint8Array(memory.buffer, at >>> 0, size).set(input.subarray(place, place + size));
                place += size;
                return size;
            },
            write(file, at, count) {
                if (file === 1 && fails('write')) return -1;
                out[file].push(Buffer.from(new Uint8Array(memory.buffer, at >>> 0, count)));
                return count;
            },
        },
    });
    memory = instance.exports.memory;
    const text = Buffer.from(['pmb', ...job.words].map((word) => `${word}\0`).join(''));
    const at = instance.exports.words(text.length);
    new Uint8Array(memory.buffer, at >>> 0, text.length).set(text);
    let status;
    try {
        status = instance.exports.start(at, text.length);
    } catch (mistake) {
        status = `trap: ${mistake.message}`;
    }
    return { out: Buffer.concat(out[1]).toString('base64'), error: Buffer.concat(out[2]).toString('base64'), status, memory: memory.buffer.byteLength };
}

console.log(JSON.stringify({ imports, exports: exported }));
readline.createInterface({ input: process.stdin }).on('line', (line) => {
    console.log(JSON.stringify(run(JSON.parse(line))));
});
