// ---- the timeline: packets by device, status bits from set to gone, and values, over one axis

class Timeline extends Pointed {
    constructor(place, { choose, moved }) {
        super();
        this.choose = choose;
        this.moved = moved;
        this.reading = null;
        this.from = 0;
        this.to = 1;
        this.pointer = null;
        this.selected = -1;
        this.mark = null;
        this.folded = new Set();
        this.options = { limits: false, settings: false, units: false };
        this.rows = [];
        this.draw = beforePicture(() => this.paint());
        this.build(place);
        new ResizeObserver(() => this.resized()).observe(this.scroller);
        matchMedia('(prefers-color-scheme: dark)').addEventListener('change', () => this.restyle());
        window.addEventListener('beforeprint', () => this.toPaper());
        window.addEventListener('afterprint', () => this.fromPaper());
    }

    build(place) {
        const option = (name, text, title) => {
            const made = button(text, {
                class: 'toggle', 'aria-pressed': 'false', title,
                onclick: () => {
                    this.options[name] = !this.options[name];
                    made.setAttribute('aria-pressed', this.options[name]);
                    this.layout();
                },
            });
            return made;
        };
        this.shown = make('span', { class: 'shown', 'aria-live': 'off' });
        this.head = make('div', { class: 'panel-head' },
            make('h2', { text: 'Timeline' }), this.shown, make('span', { class: 'gap' }),
            option('limits', 'Limits', 'Draw the limits that the recording has into the values'),
            option('settings', 'Settings', 'Show the limits and settings as tracks too'),
            option('units', 'One plot a unit', 'Draw all values of a unit on one scale'),
            make('span', { class: 'group' },
                button('', { title: 'Zoom out (−)', 'aria-label': 'Zoom out', onclick: () => this.zoom(2) }, 'minus'),
                button('', { title: 'Zoom in (+)', 'aria-label': 'Zoom in', onclick: () => this.zoom(0.5) }, 'plus'),
                button('', { title: 'Show all (0)', 'aria-label': 'Show all', onclick: () => this.fit() }, 'fit')),
            make('span', { class: 'group' },
                button('PNG', { title: 'Save the timeline as a picture', onclick: () => this.savePicture() }),
                button('CSV', { title: 'Save the values as a table', onclick: () => this.saveValues() })));
        this.top = make('canvas', { class: 'top', 'aria-hidden': 'true' });
        this.canvas = make('canvas', { class: 'tracks', 'aria-hidden': 'true' });
        this.labels = make('div', { class: 'labels' });
        this.body = make('div', { class: 'tl-body' }, this.canvas, this.labels);
        this.scroller = make('div', {
            class: 'tl-scroll', tabindex: '0', role: 'application', 'aria-roledescription': 'timeline',
            'aria-label': 'Timeline. Arrow keys move, plus and minus zoom, zero shows all, comma and full stop go from packet to packet, square brackets from problem to problem.',
        }, this.body);
        this.tip = make('div', { class: 'tip', role: 'presentation', hidden: true });
        place.append(this.head, make('div', { class: 'tl-top' }, this.top), this.scroller);
        document.body.append(this.tip);
        this.scroller.addEventListener('scroll', () => this.draw());
        this.listen();
    }

    // ---- what is shown

    // Takes another reading; `again`, of the same recording, stays where it is.
    reset(reading, again) {
        this.reading = reading;
        this.selected = -1;
        if (!again) {
            this.mark = null;
            this.fitted = true;
            this.folded.clear();
            this.scroller.scrollTop = 0;
        }
        this.signature = '';
        this.labels.replaceChildren();
        this.rows = [];
        this.tip.hidden = true;
        this.draw();
    }

    // Takes what came: the axis grows while nobody has chosen a part of it.
    grown() {
        if (this.fitted) [this.from, this.to] = this.reading.span;
        this.layout();
    }

    fit() {
        if (!this.reading) return;
        [this.from, this.to] = this.reading.span;
        this.fitted = true;
        this.changed();
    }

    get narrow() {
        return (this.outer ?? this.scroller.clientWidth) < 640;
    }

    get left() {
        return this.narrow ? 96 : 196;
    }

    get width() {
        return Math.max(40, (this.outer ?? this.scroller.clientWidth) - this.left - 10);
    }

    toX(place) {
        return this.left + ((place - this.from) / (this.to - this.from)) * this.width;
    }

    toPlace(x) {
        return this.from + ((x - this.left) / this.width) * (this.to - this.from);
    }

    changed() {
        this.draw();
        this.moved(this.from, this.to);
    }

    zoom(
        factor,
        at = this.selected >= 0 && this.inView(this.selected) ? this.reading.place(this.selected) : (this.from + this.to) / 2,
    ) {
        if (!this.reading) return;
        const [first, last] = this.reading.span;
        const whole = last - first;
        const least = this.reading.hasTimes ? Math.max(2e-6, whole * 1e-9) : 4;
        const span = Math.min(whole * 1.02, Math.max(least, (this.to - this.from) * factor));
        const share = (at - this.from) / (this.to - this.from);
        this.show(at - share * span, at + (1 - share) * span);
    }

    // Shows a part of the axis, as far as there is something.
    show(from, to) {
        if (!this.reading) return;
        const [first, last] = this.reading.span;
        const span = to - from;
        const margin = Math.min(span, last - first) * 0.02;
        let begin = Math.max(first - margin, from);
        if (begin + span > last + margin) begin = Math.max(first - margin, last + margin - span);
        this.from = begin;
        this.to = Math.min(begin + span, Math.max(last + margin, begin + 1e-9));
        this.fitted = this.from <= first && this.to >= last;
        this.changed();
    }

    pan(share) {
        const by = (this.to - this.from) * share;
        this.show(this.from + by, this.to + by);
    }

    inView(row) {
        const place = this.reading.place(row);
        return place >= this.from && place <= this.to;
    }

    // Selects a row, and brings it into view. `close` shows its neighbours too.
    select(row, close = false) {
        this.selected = row;
        if (row >= 0 && this.reading) {
            const place = this.reading.place(row);
            let span = this.to - this.from;
            if (close) {
                const whole = this.reading.span[1] - this.reading.span[0];
                span = Math.min(
                    span,
                    this.reading.hasTimes ? Math.max(whole / 60, 60 * (this.reading.length(row) || whole / 1e4)) : 60,
                );
            }
            if (close || !this.inView(row)) this.show(place - span / 2, place + span / 2);
        }
        this.draw();
    }

    // Selects a row where it is, in view or not.
    mention(row) {
        this.selected = row;
        this.draw();
    }

    // Draws all of the timeline, with its labels, into a picture of a width.
    picture(width, styles) {
        const ratio = 2;
        const canvas = make('canvas');
        const shown = this.outer;
        this.outer = width;
        const [height, rows] = [TOP + this.height, this.rows];
        canvas.width = width * ratio;
        canvas.height = Math.min(16000, height * ratio);
        const context = canvas.getContext('2d');
        context.scale(ratio, ratio);
        context.fillStyle = styles.panel;
        context.fillRect(0, 0, width, height);
        this.ticks = this.tickList();
        const [first, last] = this.reading.span;
        const wide = (place) => this.left + ((place - first) / (last - first)) * this.width;
        this.paintWhole(context, styles, first, last, wide);
        this.paintFrame(context, styles, wide);
        this.paintRuler(context, styles);
        context.translate(0, TOP);
        this.paintTracks(context, styles, 0, this.height);
        context.textBaseline = 'middle';
        rows.forEach((row, i) => {
            const label = this.labels.children[i];
            const parts = label ? [...label.querySelectorAll('code, .name')].map((it) => it.textContent) : [];
            const text = row.type === 'group' ? `${row.title} ${row.note}` : parts.join(' ');
            context.font = `${row.type === 'group' ? '600 ' : ''}11px ${styles.font}`;
            context.fillStyle = row.type === 'group' ? styles.muted : styles.text;
            context.fillText(text, 12, row.y + row.height / 2, this.left - 16);
        });
        this.outer = shown;
        return canvas;
    }

    savePicture() {
        if (!this.reading) return;
        const canvas = this.picture(this.scroller.clientWidth, this.style());
        canvas.toBlob((blob) => save(blob, 'timeline.png'), 'image/png');
        this.draw();
    }

    // On paper the timeline is a picture of all of it, in dark colours on white.
    toPaper() {
        if (!this.reading || this.reading.count === 0) return;
        document.documentElement.classList.add('on-paper');
        const picture = this.picture(1000, this.readStyles());
        document.documentElement.classList.remove('on-paper');
        picture.className = 'paper';
        this.fromPaper();
        this.scroller.after(picture);
    }

    fromPaper() {
        this.scroller.parentNode.querySelector('canvas.paper')?.remove();
    }

    // The values as a table: a line for each value that a track shows.
    valuesText() {
        const { reading } = this;
        const quoted = (text) => (/[",\n]/.test(text) ? `"${text.replace(/"/g, '""')}"` : text);
        const lines = ['time,device,name,page,phase,command,value,unit,assumed'];
        for (const value of this.tracks) {
            const { track } = value;
            const tail = [
                hexByte(value.device),
                quoted(reading.names.get(value.device) ?? ''), value.page ?? '', value.phase ?? '',
                quoted(value.command),
            ];
            for (let i = 0; i < track.values.length; i++) {
                const row = track.rows.items[i];
                const time = reading.hasTimes ? Number((reading.place(row) + (reading.summary.base ?? 0)).toFixed(9)) : row;
                lines.push([
                    time, ...tail, track.values.items[i], value.unit, track.assumed.items[i] ? 'yes' : '',
                ].join());
            }
        }
        return `${lines.join('\n')}\n`;
    }

    saveValues() {
        if (this.reading) save(new Blob([this.valuesText()], { type: 'text/csv' }), 'values.csv');
    }
}
