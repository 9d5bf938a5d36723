// ---- how the recording is read: its source, and what the program is told besides

class How {
    // `again` reads the recording once more, after a change.
    constructor(again) {
        this.again = again;
        this.element = make(
            'div',
            { class: 'how', id: 'how', hidden: true, role: 'dialog', 'aria-label': 'How the recording is read' },
        );
    }

    focus() {
        this.element.querySelector('select, input')?.focus();
    }

    // `flags` are those of the reading, `words` the same as words of a command.
    fill(recording, profile, flags, words) {
        const rows = [this.field('source', this.sources(recording))];
        if (recording.source !== 'capture' && recording.source !== 'beagle') {
            rows.push(this.field(
                'bus', this.input(recording, 'bus', { placeholder: 'the first one', spellcheck: 'false' }),
                'as the recording names it: i2c-0',
            ));
        }
        if (recording.source === 'sigrok') {
            rows.push(this.field(
                'samples a second',
                this.input(recording, 'rate', { inputmode: 'numeric', placeholder: 'for times' }),
                'such as 24000000',
            ));
            rows.push(this.check('the address is the whole byte', recording, 'unshifted', '--unshifted'));
        }
        rows.push(
            this.check(
                'it begins in the middle', flags, 'late',
                '--late: PAGE and VOUT_MODE are unknown until they are seen',
            ),
            this.check('go on after a word that is no token', flags, 'keepGoing', '--keep-going'),
            make(
                'p', { class: 'command-line' }, make('small', { text: 'the same in a shell' }),
                make('code', { text: this.command(recording, profile, words) }),
            ),
        );
        this.element.replaceChildren(...rows);
    }

    // The same as lines for a shell. A recording that begins with its profile is read with that.
    command(recording, profile, words) {
        const name = quote(recording.name);
        const isCapture = recording.source === 'capture';
        const over = (command) => (isCapture ? `pmb ${command} ${name}` : `pmb ${recording.words.join(' ')} ${name} | pmb ${command}`);
        if (profile?.origin === 'capture' && isCapture) return over(['log', ...words].join(' '));
        const isScanned = profile === null || profile.origin === 'scan';
        const log = over(['log', '-p', quote(profile?.name ?? 'scan.toml'), ...words].join(' '));
        return isScanned ? `${over('scan')} > scan.toml\n${log}` : log;
    }

    sources(recording) {
        const options = Object.entries(SOURCES).map(([value, name]) => {
            const text = value === recording.found ? `${name} (found)` : name;
            return make('option', { value, text, selected: value === recording.source });
        });
        return make('select', { onchange: this.changes(recording, 'source', (it) => it.value) }, ...options);
    }

    input(of, key, more) {
        return make('input', {
            type: 'text', value: of[key], ...more, onchange: this.changes(of, key, (it) => it.value.trim()),
        });
    }

    field(text, element, note) {
        return make(
            'label', { class: 'field-row' }, make('span', { text }), element,
            note ? make('small', { text: note }) : null,
        );
    }

    check(text, of, key, note) {
        return make(
            'label', { class: 'check-row' },
            make('input', {
                type: 'checkbox', checked: of[key], onchange: this.changes(of, key, (it) => it.checked),
            }),
            make('span', { text }), make('small', { text: note }),
        );
    }

    changes(of, key, valueOf) {
        return (event) => {
            of[key] = valueOf(event.target);
            this.again();
        };
    }
}

// The name of a file as a word of a shell.
const quote = (name) => (/^[\w.+][\w.+-]*$/.test(name) ? name : `'${name.replace(/^-/, './-').replace(/'/g, "'\\''")}'`);
