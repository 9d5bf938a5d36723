// ---- the profile: its text, its mistake, and the bus that it makes

class ProfileView {
    // `read` reads with a profile; `scan` makes one of the recording; `open` chooses files.
    constructor(place, { read, scan, open }) {
        this.read = read;
        this.parts = make('select', { 'aria-label': 'A profile of a real part', onchange: () => this.part() },
            make('option', { value: '', text: 'A real part …' }), ...Object.keys(DATA.parts).map((name) => make(
                'option', { value: name, text: name },
            )));
        this.origin = make('span', { class: 'shown' });
        this.gutter = make('div', { class: 'gutter', 'aria-hidden': 'true' });
        this.mark = make('div', { class: 'mistake-line', hidden: true });
        this.text = make('textarea', {
            class: 'code', spellcheck: 'false', autocomplete: 'off', autocapitalize: 'off', wrap: 'off', 'aria-label': 'The profile, as TOML',
            'aria-describedby': 'mistake', oninput: () => this.edited(), onscroll: () => this.scrolled(),
            onkeydown: (event) => {
                if (event.key === 'Enter' && (event.ctrlKey || event.metaKey)) {
                    event.preventDefault();
                    this.submit();
                }
            },
        });
        this.mistake = make('div', { class: 'mistake', id: 'mistake', role: 'alert', hidden: true });
        this.bus = make('pre', { class: 'bus-text', tabindex: '0', 'aria-label': 'The bus that the profile makes' });
        place.append(
            make('div', { class: 'panel-head' }, make(
                'h2', { text: 'Profile' },
            ), this.origin, make('span', { class: 'gap' }),
                this.parts, button(
                    'From the recording',
                    {
                        title: 'What pmb scan makes of the recording: a device for each address that acknowledged',
                        onclick: scan,
                    },
                ),
                button(
                    'Sample',
                    {
                        title: 'The sample profile',
                        onclick: () => this.set({ text: DATA.sample, name: 'sample.toml', origin: 'sample' }),
                    },
                ),
                button('Open …', { onclick: open }, 'open'),
                button(
                    'Save',
                    {
                        title: 'Save the profile',
                        onclick: () => save(new Blob([this.text.value]), this.name ?? 'profile.toml'),
                    },
                    'save',
                ),
                button(
                    'Read with this',
                    {
                        class: 'main',
                        title: 'Read the recording with this profile (Ctrl+Enter)', onclick: () => this.submit(),
                    },
                )),
            make('div', { class: 'profile-grid' },
                make(
                    'div', { class: 'editor' },
                    make('div', { class: 'code-box' }, this.gutter, this.mark, this.text), this.mistake,
                ),
                make('div', { class: 'bus-box' }, make('h3', { text: 'The bus that it makes' }), this.bus)));
        this.look = settled(() => this.check(), 250);
    }

    // Shows a profile, and reads with it.
    set(profile) {
        this.show(profile);
        this.submit();
    }

    show(profile) {
        this.profile = profile;
        this.text.value = profile.text;
        this.name = profile.name;
        this.origin.textContent = `${profile.name ?? ''} · ${originText(profile)}`;
        this.kind = profile.origin;
        this.lines();
        this.check();
    }

    // Shows that there is none, and why.
    none(why) {
        this.turn = (this.turn ?? 0) + 1;
        this.profile = null;
        this.text.value = '';
        this.name = undefined;
        this.origin.textContent = why;
        this.kind = undefined;
        this.lines();
        this.tell(null, '');
    }

    part() {
        const name = this.parts.value;
        if (name === '') return;
        this.parts.value = '';
        this.set({ text: DATA.parts[name], name: `${name}.toml`, origin: 'part' });
    }

    edited() {
        this.kind = 'edited';
        this.origin.textContent = `${this.name ?? 'profile.toml'} · ${originText({ origin: 'edited' })}`;
        this.lines();
        this.look();
    }

    submit() {
        const isShown = this.profile && this.kind !== 'edited';
        this.read(isShown ? this.profile : { text: this.text.value, name: this.name ?? 'profile.toml', origin: 'edited' });
    }

    lines() {
        const count = this.text.value.split('\n').length;
        if (count !== this.counted) {
            this.counted = count;
            this.gutter.textContent = Array.from({ length: count }, (_, i) => i + 1).join('\n');
        }
        this.scrolled();
    }

    scrolled() {
        this.gutter.scrollTop = this.text.scrollTop;
        if (this.line) this.mark.style.transform = `translateY(${(this.line - 1) * 20 - this.text.scrollTop}px)`;
    }

    // Asks `pmb profile` what it makes of the text.
    async check() {
        const turn = (this.turn = (this.turn ?? 0) + 1);
        const { text, error, status } = await program(['profile'], [this.text.value]);
        if (turn !== this.turn) return;
        this.tell(status === 0 ? null : error, text);
    }

    tell(error, bus) {
        this.line = 0;
        this.mistake.hidden = error === null;
        this.mark.hidden = true;
        this.text.setAttribute('aria-invalid', error !== null);
        if (error === null) {
            this.bus.textContent = bus;
            return;
        }
        const [first, ...hints] = error.trimEnd().split('\n');
        const found = /^ *line ([0-9]+), column ([0-9]+)/m.exec(error);
        const what = make('p', {}, make('b', { text: first.replace(/^pmb: profile: /, '') }));
        this.mistake.replaceChildren(what, ...hints.map((hint) => make('p', { class: 'hint', text: hint.trim() })));
        this.bus.textContent = 'None, until the mistake is mended.';
        if (found) {
            this.line = Number(found[1]);
            this.mark.hidden = false;
            this.mistake.append(button(`Go to line ${this.line}`, { onclick: () => this.goTo(this.line) }));
            this.scrolled();
        }
    }

    // Shows the mistake of a profile that could not be read with.
    refuse(error) {
        this.tell(error, '');
        if (this.line) this.goTo(this.line);
        else this.text.focus();
    }

    goTo(line) {
        const lines = this.text.value.split('\n');
        const from = lines.slice(0, line - 1).reduce((sum, it) => sum + it.length + 1, 0);
        this.text.focus();
        this.text.setSelectionRange(from, from + (lines[line - 1]?.length ?? 0));
        this.text.scrollTop = Math.max(0, (line - 4) * 20);
        this.scrolled();
    }
}
