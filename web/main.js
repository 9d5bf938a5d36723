// ---- the page: what is open, and its views

class Page {
    constructor() {
        this.recording = null;
        this.profile = null;
        this.reading = null;
        this.generation = 0;
        this.selected = -1;
        this.chosen = null; // a packet that is to be chosen once it has come
        this.view = 'bus';
        this.flags = { late: false, keepGoing: true };
        this.build();
        this.listen();
        this.show('bus');
        this.fresh();
        if (window.pmb.inside) this.openInside(window.pmb.inside);
    }

    // ---- the frame

    build() {
        this.files = make(
            'input',
            {
                type: 'file', multiple: true, hidden: true, 'aria-hidden': 'true', tabindex: '-1',
                onchange: () => { this.open([...this.files.files]); this.files.value = ''; },
            },
        );
        this.header = new Header({
            open: () => this.files.click(), show: (view) => this.show(view), how: () => this.toggleHow(),
            stop: () => this.stop(), help: () => this.help.showModal(),
        });
        this.cancel = this.header.cancel;
        this.how = new How(() => this.read());
        this.alarm = make('div', { class: 'alarm', role: 'alert', hidden: true });
        this.views = Object.fromEntries(VIEWS.map(([name]) => [name, make('div', {
            class: `view ${name}`, id: `view-${name}`, role: 'tabpanel', 'aria-labelledby': `tab-${name}`,
            hidden: true,
        })]));
        this.tiles = new Tiles({
            filter: (kind) => this.table.choose_kind(kind), how: () => this.toggleHow(true),
        });
        const timeline = make('section', { class: 'panel timeline', 'aria-label': 'Timeline' });
        const table = make('section', { class: 'panel packets', 'aria-label': 'Packets' });
        const looks = make('section', { class: 'panel needs', 'aria-label': 'What needs a look' });
        const packet = make('section', { class: 'panel one', 'aria-label': 'The packet' });
        this.splitter = make(
            'div',
            {
                class: 'splitter', role: 'separator', tabindex: '0', 'aria-orientation': 'horizontal',
                'aria-label': 'Between the timeline and the table', 'aria-valuenow': '64',
            },
        );
        this.left = make('div', { class: 'left' }, timeline, this.splitter, table);
        this.bus = make('div', { class: 'bus-grid' }, this.left, make('div', { class: 'side' }, looks, packet));
        this.welcome = welcomePage({
            choose: () => this.files.click(), pasted: (text) => this.pasted(text),
            example: (name) => this.example(name), recording: (name) => this.exampleRecording(name),
        });
        this.views.bus.append(this.welcome, this.tiles.element, this.bus);
        this.timeline = new Timeline(
            timeline,
            { choose: (row) => this.choose(row, 'timeline'), moved: () => this.table?.viewMoved() },
        );
        this.table = new Table(
            table,
            { choose: (row) => this.choose(row, 'table'), inView: () => ({ timeline: this.rowsInView() }) },
        );
        this.looksHead = make('span', { class: 'shown' });
        looks.append(make('div', { class: 'panel-head' }, make('h2', { text: 'What needs a look' }), this.looksHead));
        this.looks = new Looks(looks, (item, row) => this.goTo(item, row));
        this.packet = new Packet(packet, { step: (by) => this.step(by) });
        this.sums = new Sums(this.views.sums, { choose: (row) => { this.show('bus'); this.choose(row, 'sums'); } });
        this.profileView = new ProfileView(this.views.profile, {
            read: (profile) => this.readWith(profile), scan: () => this.fromRecording(),
            open: () => this.files.click(),
        });
        this.try = new Try(this.views.try, { profile: () => this.profile });
        this.help = helpDialog();
        this.drop = make(
            'div',
            { class: 'drop', hidden: true, 'aria-hidden': 'true' },
            make('p', { text: 'Drop a recording, a profile, or both' }),
        );
        document.body.append(
            this.header.element, this.how.element, this.alarm, make('main', {}, ...Object.values(this.views)),
            this.help, this.drop, this.files,
        );
        splits(this.left, this.splitter);
    }

    show(view) {
        this.view = view;
        this.header.select(view);
        for (const [name, element] of Object.entries(this.views)) element.hidden = name !== view;
        if (view === 'try') this.try.show();
        if (view === 'profile' && !this.profileView.text.value && !(this.recording && this.profile === null)) {
            this.profileView.show(this.profile ?? { text: DATA.sample, name: 'sample.toml', origin: 'sample' });
        }
        if (view === 'bus') this.timeline.resized();
    }

    listen() {
        let inside = 0;
        const files = (event) => event.dataTransfer?.types.includes('Files');
        document.addEventListener('dragenter', (event) => {
            if (!files(event)) return;
            inside++;
            this.drop.hidden = false;
        });
        document.addEventListener('dragleave', () => { if (--inside <= 0) this.drop.hidden = true; });
        document.addEventListener('dragover', (event) => event.preventDefault());
        document.addEventListener('drop', (event) => {
            event.preventDefault();
            inside = 0;
            this.drop.hidden = true;
            if (event.dataTransfer.files.length > 0) this.open([...event.dataTransfer.files]);
        });
        document.addEventListener('paste', (event) => {
            if (event.target.closest?.('input, textarea')) return;
            const { files: pasted } = event.clipboardData;
            if (pasted.length > 0) this.open([...pasted]);
            else this.pasted(event.clipboardData.getData('text/plain'));
        });
        document.addEventListener('keydown', (event) => this.key(event));
        document.addEventListener('pointerdown', (event) => {
            if (
                !this.how.element.hidden &&
                !this.how.element.contains(event.target) &&
                !this.header.recording.contains(event.target)
            ) this.toggleHow(false);
        });
        window.addEventListener('error', (event) => {
            // (a browser's note that sizes settled one picture later)
            if (!event.message.startsWith('ResizeObserver')) this.fail(event.message);
        });
        window.addEventListener(
            'unhandledrejection',
            (event) => {
                if (event.reason?.name !== 'AbortError') this.fail(event.reason?.message ?? String(event.reason));
            },
        );
    }

    key(event) {
        if (event.key === 'Escape' && !this.how.element.hidden) {
            this.toggleHow(false);
            this.header.recording.focus();
            return;
        }
        if (event.ctrlKey || event.metaKey || event.altKey || event.target.closest('input, textarea, select, dialog')) return;
        const to = (element) => {
            this.show('bus');
            element?.focus();
        };
        const keys = {
            o: () => this.files.click(),
            '/': () => to(this.table.text),
            '?': () => this.help.showModal(),
            t: () => to(this.timeline.scroller),
            g: () => to(this.table.scroller),
            n: () => to(this.looks.list.querySelector('button')),
            '.': () => this.step(1),
            ',': () => this.step(-1),
            ']': () => this.stepProblem(1),
            '[': () => this.stepProblem(-1),
        };
        VIEWS.forEach(([name], i) => { keys[i + 1] = () => this.show(name); });
        const call = keys[event.key] ?? keys[event.key.toLowerCase()];
        if (call) {
            event.preventDefault();
            call();
        }
    }

    // ---- opening

    fresh() {
        const none = this.recording === null;
        this.welcome.hidden = !none;
        this.tiles.element.hidden = none;
        this.bus.hidden = none;
        this.header.recording.hidden = none;
        document.body.classList.toggle('empty', none);
    }

    // Files that were dropped or chosen: profiles and recordings, in any order.
    async open(files) {
        this.toggleHow(false);
        const { profile, recording, others } = await sortFiles(files);
        if (profile) {
            this.profile = profile;
            this.profileView.show(profile);
        }
        if (recording) {
            await this.openRecording(recording, recording.name, profile);
            if (others.length > 0) {
                this.note('One recording at a time.', `${recording.name} is shown, and not ${others.join(', ')}`);
            }
        }
        if (!recording && profile && this.recording) this.read();
        else if (!recording && profile) this.show('profile');
    }

    // Opens what stands in the page itself, as a report has it: a profile, and recordings to choose from.
    openInside({ profile, recordings }) {
        const own = profile === null ? null : { ...profile, origin: 'file' };
        const openOne = ({ name, text }) => {
            this.profile = own;
            if (own) this.profileView.show(own);
            return this.openRecording(new Blob([Uint8Array.from(text, (it) => it.charCodeAt(0))]), name, own);
        };
        if (recordings.length > 1) {
            const choice = make('select', {
                'aria-label': 'Recording', onchange: () => openOne(recordings[choice.value]),
            }, ...recordings.map(({ name }, i) => make('option', { value: i, text: name })));
            this.header.recording.before(choice);
        }
        return openOne(recordings[0]);
    }

    pasted(text) {
        if (text.trim() === '') return;
        const name = isProfile(text) && !split(text) ? 'pasted.toml' : 'pasted text';
        this.open([new File([text.endsWith('\n') ? text : `${text}\n`], name)]);
    }

    async openRecording(blob, name, profile = null, more = {}) {
        const head = await headOf(blob);
        const parts = split(head);
        let rest = blob;
        if (parts) {
            const own = await blob.slice(0, parts.profile.length).text();
            if (!profile) {
                this.profile = { text: own, name: `profile of ${name}`, origin: 'capture' };
                this.profileView.show(this.profile);
            }
            rest = blob.slice(parts.rest);
        } else if (!profile && ['capture', 'example', 'scan'].includes(this.profile?.origin)) {
            // (a profile that belonged to another recording goes with it)
            this.profile = null;
        }
        const found = parts ? 'capture' : sourceOf(head);
        this.recording = new Recording(rest, name, found, head, more);
        this.read();
    }

    example(name) {
        const bench = name === 'bench';
        const profile = {
            text: bench ? BENCH : DATA.sessions[name].profile, name: `${name}.toml`, origin: 'example',
        };
        const text = bench ? benchCapture() : DATA.sessions[name].text;
        this.profile = profile;
        this.profileView.show(profile);
        return this.openRecording(new Blob([text]), `${name}.txt`, profile);
    }

    exampleRecording(name) {
        this.profile = { text: DATA.sample, name: 'sample.toml', origin: 'example' };
        this.profileView.show(this.profile);
        return this.openRecording(
            new Blob([DATA.recordings[name]]), name, this.profile,
            name === 'sigrok.txt' ? { rate: '1000000000' } : {},
        );
    }

    readWith(profile) {
        this.profile = profile;
        if (this.recording) {
            this.show('bus');
            this.read();
        } else {
            this.profileView.check();
        }
    }

    fromRecording() {
        if (!this.recording) {
            this.note('There is no recording.', 'Open one, and pmb scan makes a profile of it.');
            return;
        }
        this.profile = null;
        this.show('bus');
        this.read();
    }

    // ---- reading

    // Reads the recording with the profile, or with the one that `pmb scan` makes of it. What was there
    // before is gone; `again`, of the same recording, leaves what the person chose.
    async read(again = false) {
        const turn = ++this.generation;
        // (what is imported in another way, and what was scanned in part, is scanned anew)
        const { words, part } = this.profile ?? {};
        if (words !== undefined && (part !== undefined || words !== this.recording.words.join(' '))) this.profile = null;
        this.chosen = again ? this.keptChoice() : null;
        this.stop(true);
        this.selected = -1;
        this.alarm.hidden = true;
        const reading = new Reading({
            rows: () => this.grown(), summary: () => this.grown(), texts: () => {
                this.table.draw();
                this.timeline.texts();
            }, progress: () => this.progressed(),
            failed: (message) => { if (turn === this.generation) this.fail(message); },
        });
        reading.generation = turn;
        this.reading = reading;
        this.began = performance.now();
        this.firstRow = null;
        this.seconds = null;
        this.verb = again ? 'reading again with the profile of all of it' : 'reading';
        this.phase = this.verb;
        this.table.reset(reading, again);
        this.timeline.reset(reading, again);
        this.packet.reset();
        this.sums.reset();
        this.looks.show(null);
        this.looksHead.textContent = '';
        this.grownLast = 0;
        if (this.profile === null) this.profileView.none('pmb scan is making one of the recording');
        this.fresh();
        this.header.names(this.recording, this.profile);
        this.progressed();
        this.fillHow();
        const current = () => turn === this.generation && !reading.closed;
        try {
            const capture = await this.captureOf(reading);
            if (!current() || capture === null) return;
            if (this.profile === null) await this.scan(reading, capture, current);
            if (!current() || this.profile === null) return;
            await this.readCapture(reading, capture, current);
        } catch (mistake) {
            if (current()) this.fail(mistake.message);
        }
    }

    // The capture of the recording: imported, or the file itself, which is looked at on the way.
    async captureOf(reading) {
        const { blob, source } = this.recording;
        if (source === 'capture') {
            reading.ask('keep', { blob });
            return blob;
        }
        this.phase = 'importing';
        const { status, error } = await reading.run('capture', this.recording.words, [blob]);
        if (status > 1) {
            this.fail(error.trim());
            this.finish();
            return null;
        }
        this.phase = this.verb;
        reading.progress = { used: 0, size: 1 };
        return (await reading.ask('capture')).blob;
    }

    // Makes the profile that `pmb scan` writes of a capture. That of a long one is at first that of its first
    // part; the whole is scanned while it is read, and `reading.scan` ends when that has come.
    async scan(reading, capture, current) {
        this.phase = 'scanning';
        this.progressed();
        const words = this.recording.words.join(' ');
        const run = (size, progress) => scanned(capture, size, words, { signal: reading.cancel.signal, progress });
        const size = await firstPart(capture);
        if (!current()) return;
        const first = await run(size);
        if (!current()) return;
        if (first.error) {
            this.profileView.none('pmb scan made none');
            this.note('No profile could be made of it.', `${first.error}\nOpen one, or write it in the view Profile.`);
            this.finish();
            return;
        }
        this.take(first);
        this.phase = this.verb;
        if (first.part === undefined) return;
        reading.isSure = false;
        const whole = run(capture.size, (progress) => {
            if (!current() || !reading.ended.has('json')) return;
            this.phase = 'scanning all of it';
            reading.progress = progress;
            this.progressed();
        });
        reading.scan = whole.then((profile) => this.scannedWhole(reading, profile));
        reading.scan.catch(() => {}); // (it is awaited in readCapture, unless the reading was cancelled)
    }

    // The profile of the whole recording has come. If it says the same as that of the first part, nothing
    // changes but its comments; else the recording is read again with it.
    scannedWhole(reading, profile) {
        if (reading !== this.reading || reading.isCancelled) return;
        if (profile.error) {
            this.note('The profile is that of the first part of the recording.', profile.error);
            return;
        }
        const isSame = tablesOf(profile.text) === tablesOf(this.profile.text);
        this.take(profile);
        reading.isSure = isSame;
        if (!isSame) {
            this.read(true);
            return;
        }
        this.looks.show(reading);
        this.tellEnd();
    }

    // Takes a profile of `pmb scan`. What a person is writing in the view of the profile stays there.
    take(profile) {
        this.profile = profile;
        if (this.profileView.kind !== 'edited') this.profileView.show(profile);
        this.header.names(this.recording, profile);
        this.fillHow();
    }

    // Says where `pmb scan` read no further, if it did.
    tellEnd() {
        const end = this.profile.origin === 'scan' ? readUpTo(this.profile.text) : undefined;
        if (end) this.note('The profile is that of the part before a word that is no token.', `pmb scan: ${end}`);
    }

    get readWords() {
        return [...(this.flags.late ? ['--late'] : []), ...(this.flags.keepGoing ? ['--keep-going'] : [])];
    }

    async readCapture(reading, capture, current) {
        this.tellEnd();
        const input = [this.profile.text, '\n%%\n', capture];
        const json = reading.run('json', ['json', ...this.readWords], input);
        const log = reading.run('log', ['log', ...this.readWords], input);
        const stats = program(['stats', '--json', ...this.readWords], input, { signal: reading.cancel.signal });
        stats.catch(() => {}); // (it is awaited below, unless the reading was cancelled)
        const ended = await json;
        if (!current()) return;
        if (ended.error.startsWith('pmb: profile')) {
            const checked = await program(['profile'], [this.profile.text]);
            if (current()) this.refuse(checked.error || ended.error);
            return;
        }
        if (ended.status > 1) this.fail(ended.error.trim() || 'the program was broken off');
        this.seconds = (performance.now() - this.began) / 1000;
        this.grown(true);
        await log;
        if (!current()) return;
        this.table.ended();
        const sums = await stats;
        if (!current()) return;
        reading.stats = sums.text;
        this.sums.show(reading, sums.text);
        await reading.scan;
        if (!current()) return;
        this.finish();
    }

    finish() {
        for (const worker of this.reading.runs.values()) worker.terminate();
        this.reading.cancel.abort();
        this.reading.isOver = true;
        this.header.done();
        this.looks.show(this.reading);
        this.tell();
        this.whole = true;
    }

    // Ends a reading; what came stays, but for another one.
    stop(other = false) {
        const { reading } = this;
        this.whole = false;
        if (!reading) return;
        if (other) {
            reading.close();
            return;
        }
        reading.cancel.abort();
        for (const worker of reading.runs.values()) worker.terminate();
        this.generation++;
        reading.isCancelled = true;
        this.looks.show(reading);
        if (this.profile === null) this.profileView.none('none: pmb scan was cancelled');
        this.header.done();
        this.header.say(`cancelled after ${counted(reading.count, 'row')}`);
    }

    refuse(error) {
        this.profileView.show(this.profile);
        this.show('profile');
        this.profileView.refuse(error);
        this.finish();
        this.header.say('The profile has a mistake.');
    }

    fail(message) {
        this.note('It could not be read.', message);
    }

    // Tells something above the views.
    note(head, text) {
        this.alarm.replaceChildren(
            make('b', { text: head }), make('span', { text }),
            button('', { 'aria-label': 'Close', onclick: () => { this.alarm.hidden = true; } }, 'close'),
        );
        this.alarm.hidden = false;
    }

    // ---- what came

    grown(now = false) {
        const { reading } = this;
        if (this.firstRow === null && reading.count > 0) this.firstRow = performance.now() - this.began;
        this.table.grown();
        // (what is drawn whole need not follow each piece)
        const time = performance.now();
        if (!now && time - this.grownLast < 120) {
            if (!this.later) {
                this.later = setTimeout(() => {
                    this.later = 0;
                    this.grown(true);
                }, 140);
            }
            return;
        }
        this.grownLast = time;
        if (this.chosen !== null) this.chooseAgain();
        this.timeline.grown();
        this.tell();
        this.looks.show(reading);
        this.looksHead.textContent = this.looks.count ? String(this.looks.count) : '';
    }

    progressed() {
        const { used, size } = this.reading.progress;
        const share = size > 0 ? used / size : 0;
        const rows = this.reading.count > 0 ? ` · ${counted(this.reading.count, 'row')}` : '';
        this.header.progress(share, `${this.phase} ${Math.round(share * 100)} %${rows}`);
    }

    // The counts on top, and how long it took.
    tell() {
        this.tiles.show(this.reading, this.recording.source);
        if (!this.header.isDone || this.seconds === null) return;
        const { seconds } = this;
        const text = seconds < 0.1 ? '< 0.1' : seconds.toFixed(seconds < 10 ? 2 : 1);
        this.header.say(`${sizeText(this.recording.blob.size)} in ${text} s`);
    }

    // Opens or closes what says how the recording is read.
    toggleHow(open = this.how.element.hidden) {
        this.how.element.hidden = !open;
        this.header.recording.setAttribute('aria-expanded', open);
        if (open) {
            this.fillHow();
            this.how.focus();
        }
    }

    fillHow() {
        if (this.recording) this.how.fill(this.recording, this.profile, this.flags, this.readWords);
    }

    // ---- from packet to packet

    choose(row, from) {
        const { reading } = this;
        if (!reading || row < 0 || row >= reading.count) return;
        this.chosen = null;
        this.selected = row;
        this.table.select(row);
        if (from === 'again') this.timeline.mention(row);
        else this.timeline.select(row, from === 'looks' || from === 'sums');
        this.packet.show(reading, row);
    }

    goTo(item, row) {
        if (row >= 0) {
            this.choose(row, 'looks');
            return;
        }
        this.reading.ask('rowOfLine', { line: item.line }).then(({ row: near }) => this.choose(near, 'looks'));
    }

    // The event at which the chosen packet begins, or null.
    keptChoice() {
        return this.selected < 0 ? this.chosen ?? null : this.reading.at.items[this.selected];
    }

    // Chooses, in a reading that begins again, the packet that was chosen before, once it has come.
    chooseAgain() {
        const { at, count } = this.reading;
        if (count === 0 || at.items[count - 1] < this.chosen) return;
        const row = lowerBound(count, (i) => at.items[i], this.chosen);
        this.choose(row, 'again');
    }

    // The next row of the table, or the one before.
    step(by) {
        const { table } = this;
        if (!this.reading || table.count === 0) return;
        let index = this.selected < 0 ? -1 : table.indexOf(this.selected);
        if (index < 0) index = by > 0 ? -1 : table.count;
        index = Math.max(0, Math.min(table.count - 1, index + by));
        this.choose(table.rowAt(index), 'step');
    }

    stepProblem(by) {
        const rows = this.reading?.problems;
        if (!rows || rows.length === 0) return;
        let index = lowerBound(
            rows.length, (i) => rows.items[i], this.selected + (by > 0 ? 1 : 0),
        ) - (by > 0 ? 0 : 1);
        index = Math.max(0, Math.min(rows.length - 1, index));
        this.choose(rows.items[index], 'looks');
    }

    rowsInView() {
        const { reading, timeline } = this;
        const at = (i) => reading.place(i);
        return { from: lowerBound(reading.count, at, timeline.from), to: lowerBound(reading.count, at, timeline.to) };
    }
}

// (for trials)
window.pmb.example = benchCapture;
window.pmb.exampleProfile = BENCH;
window.pmb.page = new Page();
