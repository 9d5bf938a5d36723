// ---- the table: a row for each packet, of which only those that are seen are laid out

const ROW_HEIGHT = 22;
const MOST_HEIGHT = 8000000; // (browsers end what is higher)
const KIND_WORDS = {
    write: ['W', 'write'], read: ['R', 'read'], call: ['C', 'process call'], refused: ['N', 'NACKed'], alert: ['!', 'alert'],
    other: ['·', 'not PMBus'], refusal: ['✕', 'protocol error'], bad_token: ['✕', 'no token'],
};

class Table {
    constructor(place, { choose, inView }) {
        this.choose = choose;
        this.inViewOf = inView;
        this.reading = null;
        this.rows = null; // the rows that a filter leaves
        this.top = 0;
        this.selected = -1;
        this.pool = [];
        this.asked = 0;
        this.draw = beforePicture(() => this.paint());
        this.refilter = settled(() => this.filter(), 120);
        this.build(place);
        new ResizeObserver(() => this.draw()).observe(this.scroller);
    }

    build(place) {
        const changed = () => this.refilter();
        this.text = make(
            'input',
            {
                type: 'search', placeholder: 'Filter by text   /', 'aria-label': 'Filter by text',
                spellcheck: 'false', autocomplete: 'off', oninput: changed,
            },
        );
        this.device = make('select', { 'aria-label': 'Device', onchange: changed });
        this.command = make('select', { 'aria-label': 'Command', onchange: changed });
        this.kind = make('select', { 'aria-label': 'Kind', onchange: changed });
        for (const [value, text] of [['', 'all kinds'], [
            'problem', 'what needs a look',
        ], ['value', 'values'], [
            'fault', 'status with a fault',
        ], ['read', 'reads'], ['write', 'writes'], ['call', 'process calls'],
            ['refused', 'NACKed'], [
                'refusal', 'protocol errors',
            ], ['alert', 'alerts'], ['other', 'not PMBus'], ['bad_token', 'no token']]) {
            this.kind.append(make('option', { value, text }));
        }
        this.inView = make('input', { type: 'checkbox', onchange: changed });
        this.counts = make('span', { class: 'shown', role: 'status' });
        this.clear = button('Clear', { class: 'clear', hidden: true, onclick: () => this.clearFilter() });
        this.head = make('div', { class: 'panel-head table-head' },
            make('h2', { text: 'Packets' }), this.counts, make('span', { class: 'gap' }),
            this.text, this.device, this.command, this.kind,
            make(
                'label',
                { class: 'check', title: 'Only what the timeline shows' }, this.inView,
                make('span', { text: 'in view' }),
            ), this.clear);
        this.columns = make('div', { class: 'row head', role: 'row', 'aria-hidden': 'true' },
            ...[
                '#', 'time', '', 'device', 'page', 'command', 'what it says',
            ].map((text, i) => make('span', { class: `c${i}`, text })));
        this.window = make('div', { class: 'window', role: 'rowgroup' });
        this.spacer = make('div', { class: 'spacer' }, this.window);
        this.scroller = make('div', {
            class: 'rows', tabindex: '0', role: 'grid', 'aria-label': 'Packets. Arrow keys go from row to row.', 'aria-readonly': 'true', 'aria-colcount': '7',
        }, this.spacer);
        this.empty = make('p', { class: 'quiet', hidden: true });
        this.table = place;
        place.append(this.head, this.columns, this.scroller, this.empty);
        this.scroller.addEventListener('scroll', () => {
            if (this.skip) {
                this.skip = false;
                return;
            }
            this.top = this.scaled ? (this.scroller.scrollTop / (MOST_HEIGHT - this.viewHeight)) * Math.max(0, this.count - this.visible) : this.scroller.scrollTop / ROW_HEIGHT;
            this.draw();
        });
        this.scroller.addEventListener('wheel', (event) => {
            if (!this.scaled || event.ctrlKey) return;
            event.preventDefault();
            this.scrollTo(this.top + (event.deltaY * (event.deltaMode === 1 ? 30 : 1)) / ROW_HEIGHT);
        }, { passive: false });
        this.scroller.addEventListener('keydown', (event) => this.key(event));
    }

    get count() {
        return this.rows === null ? this.reading?.count ?? 0 : this.rows.length;
    }

    get viewHeight() {
        return this.scroller.clientHeight;
    }

    get visible() {
        return this.viewHeight / ROW_HEIGHT;
    }

    get scaled() {
        return this.count * ROW_HEIGHT > MOST_HEIGHT;
    }

    // The row of the recording at a place of the table, and the other way round.
    rowAt(index) {
        return this.rows === null ? index : this.rows[index];
    }

    indexOf(row) {
        if (this.rows === null) return row;
        const index = lowerBound(this.rows.length, (i) => this.rows[i], row);
        return this.rows[index] === row ? index : -1;
    }

    // Takes another reading; `again`, of the same recording, keeps the filter.
    reset(reading, again) {
        this.reading = reading;
        this.rows = again && this.filtered ? [] : null;
        this.last = 0;
        this.selected = -1;
        this.top = 0;
        this.asked++;
        this.names = '';
        if (!again) {
            this.clearFilter(false);
            this.device.replaceChildren(make('option', { value: '', text: 'all devices' }));
            this.command.replaceChildren(make('option', { value: '', text: 'all commands' }));
        }
        for (const { element } of this.pool) element.remove();
        this.pool = [];
        this.scroller.scrollTop = 0;
        this.draw();
    }

    clearFilter(again = true) {
        this.text.value = '';
        this.device.value = '';
        this.command.value = '';
        this.kind.value = '';
        this.inView.checked = false;
        if (again) this.filter();
        else this.clear.hidden = true;
    }

    // Sets a filter from elsewhere.
    choose_kind(kind) {
        this.clearFilter(false);
        this.kind.value = kind;
        this.filter();
    }

    grown() {
        const names = `${[...this.reading.lanes.keys()].join()} ${[...this.reading.names].join()} ${[...this.reading.commands.values()].join()}`;
        if (names !== this.names) {
            this.names = names;
            const device = this.device.value;
            const command = this.command.value;
            // (what is chosen stays, though a reading that began again has not come to it yet)
            const devices = new Set([...this.reading.lanes.keys(), ...(device === '' ? [] : [Number(device)])]);
            this.device.replaceChildren(make('option', { value: '', text: 'all devices' }),
                ...[...devices].sort((one, two) => one - two).map((it) => make(
                    'option',
                    { value: it, text: this.reading.deviceText(it) },
                )));
            const codes = new Map(command === '' ? [] : [[Number(command), '']]);
            for (const [key, name] of this.reading.commands) codes.set(key & 255, name);
            this.command.replaceChildren(make('option', { value: '', text: 'all commands' }),
                ...[...codes].sort((one, two) => one[0] - two[0]).map(([code, name]) => make(
                    'option',
                    { value: code, text: `${hexByte(code)} ${name}` },
                )));
            this.device.value = device;
            this.command.value = command;
        }
        if (this.filtered && performance.now() - (this.last ?? 0) > 1000) this.filter();
        this.draw();
    }

    // All lines have come: those that a filter leaves too.
    ended() {
        if (this.filtered) this.filter();
        this.draw();
    }

    get question() {
        const { timeline } = this.inViewOf();
        return {
            device: this.device.value === '' ? null : Number(this.device.value),
            code: this.command.value === '' ? null : Number(this.command.value),
            kind: this.kind.value,
            text: this.text.value,
            ...(this.inView.checked && this.reading ? timeline : {}),
        };
    }

    get filtered() {
        return this.text.value !== '' || this.device.value !== '' || this.command.value !== '' || this.kind.value !== '' || this.inView.checked;
    }

    async filter() {
        const { reading } = this;
        if (!reading) return;
        this.clear.hidden = !this.filtered;
        const asked = ++this.asked;
        this.last = performance.now();
        if (!this.filtered) {
            this.rows = null;
        } else {
            const { rows } = await reading.ask('filter', this.question);
            if (asked !== this.asked || reading !== this.reading) return;
            this.rows = rows;
        }
        this.last = performance.now();
        const index = this.selected >= 0 ? this.indexOf(this.selected) : -1;
        this.scrollTo(index >= 0 ? Math.max(0, index - this.visible / 2) : 0);
    }

    viewMoved() {
        if (this.inView.checked) this.refilter();
    }

    scrollTo(top) {
        this.top = Math.max(0, Math.min(top, this.count - this.visible + 0.5));
        this.size();
        const place = this.scaled ? (this.top / Math.max(
            1, this.count - this.visible,
        )) * (MOST_HEIGHT - this.viewHeight) : this.top * ROW_HEIGHT;
        if (Math.abs(this.scroller.scrollTop - place) > 0.5) {
            this.skip = true;
            this.scroller.scrollTop = place;
            if (Math.abs(this.scroller.scrollTop - place) > 1) this.skip = false;
        }
        this.draw();
    }

    size() {
        this.spacer.style.height = `${Math.min(MOST_HEIGHT, this.count * ROW_HEIGHT)}px`;
    }

    select(row) {
        this.selected = row;
        const index = row >= 0 ? this.indexOf(row) : -1;
        if (index >= 0 && (index < this.top + 0.5 || index > this.top + this.visible - 1.5)) this.scrollTo(index - this.visible / 2 + 0.5);
        this.draw();
    }

    key(event) {
        if (!this.reading || event.ctrlKey || event.metaKey || event.altKey) return;
        const page = Math.max(1, Math.floor(this.visible) - 1);
        const steps = { ArrowDown: 1, ArrowUp: -1, PageDown: page, PageUp: -page, Home: -Infinity, End: Infinity };
        const step = steps[event.key];
        if (step === undefined || this.count === 0) return;
        event.preventDefault();
        event.stopPropagation();
        let index = this.selected >= 0 ? this.indexOf(this.selected) : -1;
        if (index < 0) index = step > 0 ? Math.floor(this.top) - 1 : Math.floor(this.top) + 1;
        index = Math.max(0, Math.min(this.count - 1, index + step));
        this.choose(this.rowAt(index));
    }

    paint() {
        const { reading } = this;
        this.size();
        this.scroller.setAttribute('aria-rowcount', this.count);
        const total = reading?.count ?? 0;
        this.table.style.setProperty('--number', `${Math.max(62, 12 + 8 * grouped(total).length)}px`);
        this.table.style.setProperty('--time', reading?.summary.dates ? '128px' : '96px');
        this.table.classList.toggle('no-times', total > 0 && !reading.timed);
        this.counts.textContent = !reading ? '' : this.rows === null ? counted(total, 'row') : `${grouped(this.count)} of ${counted(total, 'row')}`;
        this.empty.hidden = this.count > 0 || !reading;
        this.empty.textContent = this.filtered ? 'No row is like that.' : reading?.ended.has('json') ? 'There is no packet.' : '';
        const height = this.viewHeight;
        this.window.style.height = `${height}px`;
        this.top = Math.max(0, Math.min(this.top, this.count - this.visible + 0.5));
        const first = Math.floor(this.top);
        const last = Math.min(this.count, Math.ceil(this.top + this.visible) + 1);
        const needed = Math.max(0, last - first);
        while (this.pool.length < needed) this.pool.push(this.slot());
        this.pool.forEach((slot, i) => {
            const index = first + i;
            slot.element.hidden = i >= needed;
            if (i < needed) this.fill(slot, index);
        });
        this.scroller.setAttribute('aria-activedescendant', this.selected >= 0 ? `row${this.selected}` : '');
    }

    slot() {
        const cells = Array.from({ length: 7 }, (_, i) => make('span', { class: `c${i}`, role: 'gridcell' }));
        const element = make('div', { class: 'row', role: 'row' }, ...cells);
        const slot = { element, cells, row: -1 };
        element.addEventListener('click', () => this.choose(slot.row));
        this.window.append(element);
        return slot;
    }

    fill(slot, index) {
        const { reading } = this;
        const row = this.rowAt(index);
        const found = reading.text(row);
        const { element, cells } = slot;
        element.style.transform = `translateY(${Math.round((index - this.top) * ROW_HEIGHT)}px)`;
        const chosen = row === this.selected;
        const key = `${row} ${found ? (found.whole ? 2 : 1) : 0} ${chosen} ${reading.generation}`;
        if (slot.key === key) return;
        slot.key = key;
        slot.row = row;
        element.id = `row${row}`;
        element.setAttribute('aria-rowindex', index + 1);
        element.setAttribute('aria-selected', chosen);
        const kind = KINDS[reading.kind.items[row]];
        const flags = reading.flags.items[row];
        element.className = `row ${kind}${flags & FAULT ? ' fault' : ''}${chosen ? ' selected' : ''}`;
        const object = found?.object;
        const [mark, words] = KIND_WORDS[kind];
        const texts = [
            grouped(row),
            object?.time?.replace(/^.*T/, '') ?? '',
            mark,
            object ? (object.device ? `${object.device}${object.name ? ` ${object.name}` : ''}` : '') : '',
            object?.page === undefined ? '' : object.page === null ? '?' : object.page === 'all' ? '*' : `${object.page}${object.page_mode ? '?' : ''}`,
            object ? object.command ?? object.code ?? '' : '',
            object ? (found.whole || found.says ? found.says : '…') : '…',
        ];
        texts.forEach((text, i) => {
            if (cells[i].textContent !== text) cells[i].textContent = text;
        });
        cells[1].title = object?.time ?? '';
        cells[2].title = words;
        cells[6].title = texts[6].length > 40 ? texts[6] : '';
        cells[4].title = object?.page_mode ? 'assumed: the recording has not told PAGE yet' : '';
    }
}
