// ---- the drawing of a timeline: overview, ruler, packets and status bits

// Draws what the rows of a timeline are.
class Lanes extends Tracks {
    restyle() {
        this.styles = null;
        this.draw();
    }

    style() {
        this.styles ??= this.readStyles();
        return this.styles;
    }

    readStyles() {
        const names = [
            'bg', 'panel', 'line', 'grid', 'text', 'muted', 'accent', 'host', 'device', 'bad', 'warn', 'note', 'good',
            'read', 'write', 'select', 'band', 'warn-band',
        ];
        const styles = Object.fromEntries(names.map((name) => [name, colour(name)]));
        styles.hues = Array.from({ length: HUES }, (_, i) => colour(`hue${i}`));
        styles.font = getComputedStyle(document.body).fontFamily;
        return styles;
    }

    resized() {
        this.signature = '';
        if (this.reading) this.layout();
        else this.draw();
    }

    // Gives a canvas the size of its place, and a context that counts in CSS pixels.
    prepare(canvas, width, height) {
        const ratio = window.devicePixelRatio || 1;
        if (canvas.width !== Math.round(width * ratio) || canvas.height !== Math.round(height * ratio)) {
            canvas.width = Math.round(width * ratio);
            canvas.height = Math.round(height * ratio);
            canvas.style.width = `${width}px`;
            canvas.style.height = `${height}px`;
        }
        const context = canvas.getContext('2d');
        context.setTransform(ratio, 0, 0, ratio, 0, 0);
        context.clearRect(0, 0, width, height);
        context.lineWidth = 1;
        return context;
    }

    paint() {
        const began = performance.now();
        const width = this.scroller.clientWidth;
        if (width === 0) return;
        const height = Math.min(this.scroller.clientHeight, this.height ?? 0) || 1;
        const styles = this.style();
        const top = this.prepare(this.top, width, TOP);
        const context = this.prepare(this.canvas, width, height);
        if (!this.reading || this.reading.count === 0) return;
        this.ticks = this.tickList();
        this.paintOverview(top, styles);
        this.paintRuler(top, styles);
        this.paintTracks(context, styles, this.scroller.scrollTop, height);
        this.readouts();
        const [first, last] = this.reading.span;
        this.shown.textContent = this.reading.hasTimes
            ? `${lengthText(Math.min(this.to, last) - Math.max(this.from, first))} shown`
            : `${grouped(Math.round(Math.min(this.to, last) - Math.max(this.from, first)))} rows shown, in their order`;
        this.cost = performance.now() - began;
    }

    tickList() {
        const step = tickStep(this.to - this.from, this.width / (this.narrow ? 78 : 104));
        const base = this.reading.hasTimes && !this.reading.summary.dates ? this.reading.summary.base ?? 0 : 0;
        const ticks = [];
        const whole = this.reading.hasTimes ? step : Math.max(1, step);
        for (let n = Math.ceil((this.from + base) / whole); ; n++) {
            const place = n * whole - base;
            if (place > this.to) break;
            ticks.push(place);
            if (ticks.length > 60) break;
        }
        this.digits = Math.max(0, Math.ceil(-Math.log10(whole) - 1e-9));
        return ticks;
    }

    paintOverview(context, styles) {
        const { reading, left, width } = this;
        const [first, last] = reading.span;
        const toX = (place) => left + ((place - first) / (last - first)) * width;
        const key = `${reading.generation} ${reading.count} ${left} ${width} ${styles.panel} ${reading.summary.episodes.length} ${reading.ended.has('json')} ${context.canvas.width}`;
        if (key !== this.overviewKey) {
            this.overviewKey = key;
            this.overview ??= make('canvas');
            this.paintWhole(this.prepare(this.overview, left + width + 10, OVERVIEW), styles, first, last, toX);
        }
        context.drawImage(this.overview, 0, 0, left + width + 10, OVERVIEW);
        this.paintFrame(context, styles, toX);
    }

    // Shows which part of the whole recording is seen below.
    paintFrame(context, styles, toX) {
        const { reading, left, width } = this;
        const [first, last] = reading.span;
        const from = Math.max(left, toX(this.from));
        const to = Math.min(left + width, toX(this.to));
        context.fillStyle = styles.bg;
        context.globalAlpha = 0.6;
        context.fillRect(left, 1, from - left, OVERVIEW - 1);
        context.fillRect(to, 1, left + width - to, OVERVIEW - 1);
        context.globalAlpha = 1;
        context.strokeStyle = styles.accent;
        context.lineWidth = 1;
        context.strokeRect(from + 0.5, 1.5, Math.max(2, to - from - 1), OVERVIEW - 2);
        context.fillStyle = styles.accent;
        context.fillRect(from - 1, 9, 3, 14);
        context.fillRect(Math.max(from + 2, to) - 2, 9, 3, 14);
        context.fillStyle = styles.muted;
        context.font = `11px ${styles.font}`;
        context.textBaseline = 'middle';
        context.fillText(
            reading.hasTimes ? lengthText(last - first) : counted(reading.count, 'row'), 12, OVERVIEW / 2 + 1,
        );
    }

    // What goes on in the whole recording.
    paintWhole(context, styles, first, last, toX) {
        const { reading, left, width } = this;
        // How much goes on, over the whole recording.
        const columns = Math.min(Math.floor(width), 1600);
        const counts = new Float64Array(columns);
        let most = 1;
        let before = 0;
        for (let i = 0; i < columns; i++) {
            const next = i + 1 === columns ? reading.count : lowerBound(
                reading.count, (row) => reading.place(row),
                first + ((i + 1) / columns) * (last - first),
            );
            counts[i] = next - before;
            before = next;
            if (counts[i] > most) most = counts[i];
        }
        context.fillStyle = styles.read;
        context.globalAlpha = 0.55;
        for (let i = 0; i < columns; i++) {
            if (counts[i] === 0) continue;
            const height = 3 + 17 * Math.sqrt(counts[i] / most);
            context.fillRect(left + (i / columns) * width, OVERVIEW - 4 - height, width / columns + 0.5, height);
        }
        context.globalAlpha = 1;
        // (faults over time, and problems as ticks)
        for (const bit of this.bits ?? []) {
            if (bit.kind === 'state' || bit.explained) continue;
            context.fillStyle = bit.kind === 'warning' ? styles.warn : styles.bad;
            for (const episode of bit.episodes.slice(0, 2000)) {
                const from = toX(reading.place(episode.first));
                const to = toX(reading.place(episode.gone >= 0 ? episode.gone : episode.last));
                context.fillRect(from, OVERVIEW - 3, Math.max(2, to - from), 3);
            }
        }
        this.eachMark(reading.marks, first, last, toX, (x, kind) => {
            context.fillStyle = kind === 6 || kind === 7 ? styles.bad : styles.warn;
            context.fillRect(x - 0.75, 2, 1.5, 7);
        });
    }

    paintRuler(context, styles) {
        const { left, width } = this;
        context.font = `11px ${styles.font}`;
        context.textBaseline = 'alphabetic';
        context.strokeStyle = styles.line;
        context.beginPath();
        context.moveTo(0, TOP - 0.5);
        context.lineTo(left + width + 10, TOP - 0.5);
        context.stroke();
        for (const place of this.ticks) {
            const x = Math.round(this.toX(place)) + 0.5;
            if (x < left) continue;
            context.strokeStyle = styles.muted;
            context.beginPath();
            context.moveTo(x, TOP - 6);
            context.lineTo(x, TOP);
            context.stroke();
            const text = this.reading.timeText(place, this.digits);
            const wide = context.measureText(text).width;
            if (x + wide + 4 > left + width + 8) continue;
            context.fillStyle = styles.muted;
            context.fillText(text, x + 4, TOP - 7);
        }
        if (this.mark) this.paintMarkHead(context, styles);
        if (this.pointer && this.pointer.x >= left) {
            const text = this.reading.timeText(this.toPlace(this.pointer.x), Math.min(9, this.digits + 2));
            const wide = context.measureText(text).width + 10;
            const x = Math.min(left + width - wide + 8, Math.max(left, this.pointer.x - wide / 2));
            context.fillStyle = styles.text;
            context.beginPath();
            context.roundRect(x, OVERVIEW + 4, wide, 17, 4);
            context.fill();
            context.fillStyle = styles.panel;
            context.fillText(text, x + 5, OVERVIEW + 16.5);
        }
    }

    paintMarkHead(context, styles) {
        const [from, to] = [...this.mark].sort((one, two) => one - two);
        const { reading } = this;
        const rows = lowerBound(reading.count, (row) => reading.place(row), to) - lowerBound(
            reading.count, (row) => reading.place(row), from,
        );
        const text = reading.hasTimes ? `Δ ${lengthText(to - from)}  ·  ${counted(rows, 'packet')}${to > from ? `  ·  ${shortNumber(1 / (to - from), 4)} Hz` : ''}` : counted(rows, 'row');
        const middle = (this.toX(from) + this.toX(to)) / 2;
        const wide = context.measureText(text).width + 12;
        const x = Math.min(this.left + this.width - wide + 8, Math.max(this.left, middle - wide / 2));
        context.fillStyle = styles.select;
        context.fillRect(this.toX(from), OVERVIEW + 2, this.toX(to) - this.toX(from), TOP - OVERVIEW - 2);
        context.fillStyle = styles.accent;
        context.beginPath();
        context.roundRect(x, OVERVIEW + 4, wide, 17, 4);
        context.fill();
        context.fillStyle = styles.panel;
        context.fillText(text, x + 6, OVERVIEW + 16.5);
    }

    paintTracks(context, styles, scroll, height) {
        const { left, width } = this;
        const shown = this.rows.filter((row) => row.y + row.height > scroll && row.y < scroll + height);
        context.save();
        context.beginPath();
        context.rect(left, 0, width + 10, height);
        context.clip();
        context.strokeStyle = styles.grid;
        context.beginPath();
        for (const place of this.ticks) {
            const x = Math.round(this.toX(place)) + 0.5;
            context.moveTo(x, 0);
            context.lineTo(x, height);
        }
        context.stroke();
        if (this.mark) {
            const [from, to] = [...this.mark].sort((one, two) => one - two);
            context.fillStyle = styles.select;
            context.fillRect(this.toX(from), 0, this.toX(to) - this.toX(from), height);
        }
        context.font = `11px ${styles.font}`;
        context.textBaseline = 'middle';
        for (const row of shown) {
            const y = row.y - scroll;
            if (row.type === 'lane') this.paintLane(context, styles, row, y);
            else if (row.type === 'bit') this.paintBit(context, styles, row, y);
            else if (row.type === 'value') this.paintValues(context, styles, [row.value], y, row.height);
            else if (row.type === 'unit') this.paintValues(context, styles, row.tracks, y, row.height);
        }
        context.restore();
        context.strokeStyle = styles.line;
        context.beginPath();
        for (const row of shown) {
            if (row.type === 'bit') continue;
            const y = Math.round(row.y + row.height - scroll) - 0.5;
            context.moveTo(row.type === 'group' ? 0 : left, y);
            context.lineTo(left + width + 10, y);
        }
        context.stroke();
        if (this.selected >= 0 && this.inView(this.selected)) {
            const x = Math.round(this.toX(this.reading.place(this.selected))) + 0.5;
            context.strokeStyle = styles.accent;
            context.lineWidth = 1.5;
            context.beginPath();
            context.moveTo(x, 0);
            context.lineTo(x, height);
            context.stroke();
            context.lineWidth = 1;
        }
        if (this.pointer && this.pointer.x >= left) {
            context.strokeStyle = styles.muted;
            context.setLineDash([3, 3]);
            context.beginPath();
            context.moveTo(Math.round(this.pointer.x) + 0.5, 0);
            context.lineTo(Math.round(this.pointer.x) + 0.5, height);
            context.stroke();
            context.setLineDash([]);
        }
    }

    // Calls for NACKs, alerts and protocol errors, at most one each three pixels.
    eachMark(rows, from, to, toX, call) {
        const { reading } = this;
        let last = -10;
        const at = (i) => reading.place(rows.items[i]);
        for (let i = lowerBound(rows.length, at, from); i < rows.length; i++) {
            const row = rows.items[i];
            const place = reading.place(row);
            if (place > to) break;
            const x = toX(place);
            if (x - last < 3) {
                // (to the first one that is drawn apart)
                if (rows.length - i > 64) i = Math.max(
                    i,
                    lowerBound(rows.length, at, place + ((to - from) * 3) / this.width) - 1,
                );
                continue;
            }
            call(x, reading.kind.items[row]);
            last = x;
        }
    }

    paintLane(context, styles, { lane }, y) {
        const { reading } = this;
        const height = HEIGHTS.lane;
        const rows = lane.rows;
        const at = (i) => reading.place(rows.items[i]);
        const slack = (this.to - this.from) * 0.02 + (reading.hasTimes ? 0.01 : 1);
        const from = lowerBound(rows.length, at, this.from - slack);
        const to = lowerBound(rows.length, at, this.to);
        const middle = y + height - 5;
        if (to - from > this.width / 2.5) {
            // How many there are, by pixel.
            const pixels = Math.ceil(this.width);
            const counts = new Uint32Array(pixels);
            const faults = new Uint8Array(pixels);
            let most = 1;
            if (to - from < pixels * 40) {
                const scale = this.width / (this.to - this.from);
                for (let i = from; i < to; i++) {
                    const row = rows.items[i];
                    const x = Math.floor((reading.place(row) - this.from) * scale);
                    if (x < 0 || x >= pixels) continue;
                    counts[x]++;
                    if (reading.flags.items[row] & FAULT) faults[x] = 1;
                }
            } else {
                let before = lowerBound(to, at, this.from);
                let fault = 0;
                const ofFault = (i) => reading.place(lane.faults.items[i]);
                if (lane.faults.length > 0) fault = lowerBound(lane.faults.length, ofFault, this.from);
                for (let x = 0; x < pixels; x++) {
                    const end = this.toPlace(this.left + x + 1);
                    const next = lowerBound(to, at, end);
                    counts[x] = Math.max(0, next - before);
                    before = next;
                    if (fault < lane.faults.length && ofFault(fault) < end) {
                        faults[x] = 1;
                        fault = lowerBound(lane.faults.length, ofFault, end);
                    }
                }
            }
            for (const count of counts) if (count > most) most = count;
            context.fillStyle = styles.read;
            const room = height - 10;
            for (let x = 0; x < pixels; x++) {
                if (counts[x] === 0) continue;
                const tall = Math.max(2, (room * counts[x]) / most);
                context.globalAlpha = 0.45 + (0.4 * counts[x]) / most;
                context.fillRect(this.left + x, middle - tall, 1, tall);
            }
            context.globalAlpha = 1;
            context.fillStyle = styles.bad;
            for (let x = 0; x < pixels; x++) if (faults[x]) context.fillRect(this.left + x, middle + 1, 1, 2);
        } else {
            this.paintPackets(context, styles, rows, from, to, y);
        }
        this.eachMark(lane.marks, this.from, this.to, (place) => this.toX(place), (x, kind) => {
            this.paintProblem(context, styles, x, y + 5, kind);
        });
    }

    paintPackets(context, styles, rows, from, to, y) {
        const { reading } = this;
        const room = HEIGHTS.lane - 11;
        const top = y + 7;
        for (let i = from; i < to; i++) {
            const row = rows.items[i];
            const x = this.toX(reading.place(row));
            const next = row + 1 < reading.count ? this.toX(reading.place(row + 1)) : Infinity;
            const scale = this.width / (this.to - this.from);
            let wide = reading.hasTimes ? reading.length(row) * scale : Math.max(1, 0.9 * scale);
            wide = Math.max(2, next > x ? Math.min(wide, next - x - 0.5) : wide);
            const kind = reading.kind.items[row];
            const flags = reading.flags.items[row];
            const fill = kind === 6 || kind === 7 ? styles.bad : kind === 3 || kind === 4 ? styles.warn : flags & FAULT ? styles.bad : kind === 0 ? styles.write : kind === 5 ? styles.muted : styles.read;
            context.fillStyle = fill;
            context.globalAlpha = row === this.selected ? 1 : 0.8;
            context.beginPath();
            if (wide > 6) context.roundRect(x, top, wide, room, 2.5);
            else context.rect(x, top, wide, room);
            context.fill();
            context.globalAlpha = 1;
            if (to - from > 120) continue;
            const last = i + 1 < rows.length ? this.toX(reading.place(rows.items[i + 1])) : this.left + this.width;
            const gap = reading.hasTimes ? Math.min(last, this.left + this.width + 10) - x - wide : 0;
            if (wide > 44 || gap > 56) this.paintWords(context, styles, row, { x, y: top, wide, high: room, gap });
        }
    }

    // What a packet says: inside its box, or behind it where it fits only there.
    paintWords(context, styles, row, { x, y, wide, high, gap }) {
        const found = this.reading.text(row);
        if (!found) return;
        const { object } = found;
        const name = shortCommand(object.command ?? object.code ?? (object.kind === 'alert' ? 'alert' : object.kind));
        const text = found.says ? `${name}  ${found.says}` : name;
        context.font = `600 10.5px ${styles.font}`;
        const behind = context.measureText(text).width + 8 > wide && gap > wide;
        if (!behind && wide <= 44) return;
        const [from, room] = behind ? [x + wide + 1, gap - 4] : [x, wide - 2];
        context.save();
        context.beginPath();
        context.rect(from, y, room, high);
        context.clip();
        context.fillStyle = behind ? styles.text : styles.panel;
        if (behind) context.font = `10.5px ${styles.font}`;
        context.fillText(text, from + 4, y + high / 2 + 0.5);
        context.restore();
    }

    paintProblem(context, styles, x, y, kind) {
        context.fillStyle = kind === 6 || kind === 7 ? styles.bad : kind === 4 ? styles.note : styles.warn;
        context.strokeStyle = context.fillStyle;
        if (kind === 6 || kind === 7) {
            context.lineWidth = 1.8;
            context.beginPath();
            context.moveTo(x - 3.5, y - 3.5);
            context.lineTo(x + 3.5, y + 3.5);
            context.moveTo(x + 3.5, y - 3.5);
            context.lineTo(x - 3.5, y + 3.5);
            context.stroke();
            context.lineWidth = 1;
        } else if (kind === 4) {
            context.beginPath();
            context.moveTo(x, y - 4.5);
            context.lineTo(x + 4, y);
            context.lineTo(x, y + 4.5);
            context.lineTo(x - 4, y);
            context.fill();
        } else {
            context.beginPath();
            context.moveTo(x, y - 4);
            context.lineTo(x + 4, y + 3.5);
            context.lineTo(x - 4, y + 3.5);
            context.fill();
        }
        context.globalAlpha = 0.6;
        context.fillRect(x - 0.5, y, 1, HEIGHTS.lane - 10);
        context.globalAlpha = 1;
    }

    bitColour(styles, kind) {
        return kind === 'fault' ? styles.bad : kind === 'state' ? styles.note : styles.warn;
    }

    paintBit(context, styles, { bit }, y) {
        const { reading } = this;
        const fill = this.bitColour(styles, bit.kind);
        const end = this.left + this.width + 10;
        const begin = lowerBound(bit.episodes.length, (i) => {
            const { gone, last } = bit.episodes[i];
            return gone < 0 ? Infinity : reading.place(Math.max(gone, last));
        }, this.from);
        for (let i = begin; i < bit.episodes.length; i++) {
            const { first, last, gone } = bit.episodes[i];
            const from = this.toX(reading.place(first));
            if (from > end) break;
            const solid = Math.max(from + 2, this.toX(reading.place(last)));
            const pale = gone >= 0 ? this.toX(reading.place(gone)) : end;
            context.fillStyle = fill;
            context.beginPath();
            context.roundRect(from, y + 3, Math.max(2.5, solid - from), 11, 2);
            context.fill();
            context.globalAlpha = gone >= 0 ? 0.35 : 0.16;
            context.fillRect(solid, y + 3, Math.max(0, pale - solid), 11);
            context.globalAlpha = 1;
            if (gone < 0 && pale - solid > 96) {
                context.fillStyle = styles.muted;
                context.font = `10px ${styles.font}`;
                context.fillText('not read again', Math.max(solid, this.left) + 7, y + 9);
            }
            if (gone >= 0) {
                context.fillStyle = fill;
                context.globalAlpha = 0.8;
                context.fillRect(Math.max(pale - 1, solid), y + 3, 1, 11);
                context.globalAlpha = 1;
            }
        }
    }
}
