// ---- pointer, wheel and keys over the timeline

// Lets pointer and keys move a timeline.
class Pointed extends Lanes {
    // The row of the timeline at a place of its body.
    rowAt(y) {
        return this.rows.find((row) => y >= row.y && y < row.y + row.height);
    }

    // The packet that a place of the timeline shows.
    packetAt(x, y) {
        const { reading } = this;
        const row = this.rowAt(y);
        if (!row) return null;
        const place = this.toPlace(x);
        const near = ((this.to - this.from) / this.width) * 6;
        const nearest = (rows) => {
            const at = (i) => reading.place(rows.items[i]);
            const after = lowerBound(rows.length, at, place);
            let best = null;
            for (const i of [after - 1, after]) {
                if (i < 0 || i >= rows.length) continue;
                const packet = rows.items[i];
                const begin = reading.place(packet);
                const inside = place >= begin && place <= begin + reading.length(packet);
                const distance = inside ? 0 : Math.abs(begin - place);
                if (best === null || distance < best.distance) best = { packet, distance };
            }
            return best;
        };
        if (row.type === 'lane') {
            const problem = nearest(row.lane.marks);
            if (problem && problem.distance < near) return { row, packet: problem.packet };
            const found = nearest(row.lane.rows);
            return found && found.distance < near * 2 ? { row, packet: found.packet } : { row, packet: -1 };
        }
        if (row.type === 'value') {
            const found = nearest(row.value.track.rows);
            return { row, packet: found ? found.packet : -1 };
        }
        if (row.type === 'bit') {
            for (const episode of row.bit.episodes) {
                const from = reading.place(episode.first) - near;
                const to = (episode.gone >= 0 ? reading.place(episode.gone) : episode.gone < 0 ? Infinity : 0) + near;
                if (place >= from && place <= to) return { row, packet: episode.first, episode };
            }
        }
        return { row, packet: -1 };
    }

    placeOf(event) {
        const box = this.scroller.getBoundingClientRect();
        return { x: event.clientX - box.left, y: event.clientY - box.top + this.scroller.scrollTop };
    }

    listen() {
        const { scroller, top } = this;
        const pointers = new Map();
        let drag = null;
        const begin = (event, surface) => {
            if (!this.reading || event.button > 0) return;
            if (event.target.closest('.labels')) return;
            const at = this.placeOf(event);
            if (at.x < this.left) return;
            pointers.set(event.pointerId, at);
            surface.setPointerCapture(event.pointerId);
            if (pointers.size === 2) {
                const [one, two] = [...pointers.values()];
                drag = {
                    pinch: Math.abs(one.x - two.x) || 1, from: this.from, to: this.to,
                    middle: this.toPlace((one.x + two.x) / 2),
                };
                return;
            }
            const overview = surface === top && event.clientY - top.getBoundingClientRect().top < OVERVIEW;
            drag = {
                surface, overview, x: at.x, y: at.y, from: this.from, to: this.to, moved: false,
                shift: event.shiftKey || (surface === top && !overview),
            };
            if (overview) this.jump(at.x, drag);
        };
        const move = (event) => {
            const at = this.placeOf(event);
            if (pointers.has(event.pointerId)) pointers.set(event.pointerId, at);
            if (drag?.pinch && pointers.size === 2) {
                const [one, two] = [...pointers.values()];
                const factor = drag.pinch / (Math.abs(one.x - two.x) || 1);
                const share = (drag.middle - drag.from) / (drag.to - drag.from);
                const span = (drag.to - drag.from) * factor;
                this.show(drag.middle - share * span, drag.middle + (1 - share) * span);
                return;
            }
            if (drag && pointers.has(event.pointerId)) {
                if (Math.abs(at.x - drag.x) > 3) drag.moved = true;
                if (drag.overview) this.jump(at.x, drag);
                else if (drag.shift && drag.moved) {
                    this.mark = [this.toPlaceOf(drag, drag.x), this.toPlace(Math.max(this.left, at.x))];
                    this.draw();
                } else if (drag.moved) {
                    const by = ((drag.x - at.x) / this.width) * (drag.to - drag.from);
                    this.show(drag.from + by, drag.to + by);
                }
            }
            if (event.pointerType === 'mouse') this.hover(event, at);
        };
        const end = (event) => {
            const ended = drag;
            pointers.delete(event.pointerId);
            if (pointers.size === 0) drag = null;
            if (!ended || ended.pinch || ended.moved || ended.overview || event.type === 'pointercancel') return;
            if (this.mark) {
                this.mark = null;
                this.draw();
            }
            if (ended.surface === top) return;
            const found = this.packetAt(ended.x, ended.y);
            if (found && found.packet >= 0) this.choose(found.packet);
        };
        for (const surface of [scroller, top]) {
            surface.addEventListener('pointerdown', (event) => begin(event, surface));
            surface.addEventListener('pointermove', move);
            surface.addEventListener('pointerup', end);
            surface.addEventListener('pointercancel', end);
            surface.addEventListener('pointerleave', () => {
                this.pointer = null;
                this.tip.hidden = true;
                this.draw();
            });
            surface.addEventListener('wheel', (event) => this.wheel(event), { passive: false });
        }
        scroller.addEventListener('dblclick', (event) => {
            const at = this.placeOf(event);
            if (at.x > this.left && !event.target.closest('.labels')) this.zoom(0.25, this.toPlace(at.x));
        });
        scroller.addEventListener('keydown', (event) => this.key(event));
    }

    toPlaceOf(drag, x) {
        return drag.from + ((x - this.left) / this.width) * (drag.to - drag.from);
    }

    // Moves the part that is shown by the overview.
    jump(x, drag) {
        const [first, last] = this.reading.span;
        const place = first + ((x - this.left) / this.width) * (last - first);
        if (drag.grip === undefined) {
            drag.grip = place >= this.from && place <= this.to ? place - this.from : (this.to - this.from) / 2;
        }
        const span = this.to - this.from;
        if (span < (last - first) * 0.98) this.show(place - drag.grip, place - drag.grip + span);
        else if (Math.abs(x - drag.x) > 4) {
            // (where all is shown, a drag chooses a part)
            const begin = first + ((drag.x - this.left) / this.width) * (last - first);
            drag.grip = undefined;
            this.mark = [begin, place];
            this.draw();
        }
    }

    wheel(event) {
        if (!this.reading) return;
        const at = this.placeOf(event);
        const sideways = Math.abs(event.deltaX) > Math.abs(event.deltaY);
        if (event.shiftKey || sideways) {
            event.preventDefault();
            this.pan((sideways ? event.deltaX : event.deltaY) / this.width);
        } else if ((event.ctrlKey || event.metaKey || !this.narrow) && at.x >= this.left && !event.altKey) {
            event.preventDefault();
            const lines = event.deltaMode === 1 ? 30 : 1;
            this.zoom(
                Math.exp(Math.max(-0.6, Math.min(0.6, event.deltaY * lines * (event.ctrlKey ? 0.01 : 0.0022)))),
                this.toPlace(at.x),
            );
        }
    }

    key(event) {
        if (!this.reading || event.ctrlKey || event.metaKey || event.altKey || event.target !== this.scroller) return;
        const steps = {
            ArrowLeft: () => this.pan(event.shiftKey ? -0.5 : -0.1),
            ArrowRight: () => this.pan(event.shiftKey ? 0.5 : 0.1),
            '+': () => this.zoom(0.5),
            '=': () => this.zoom(0.5),
            '-': () => this.zoom(2),
            0: () => this.fit(),
            Home: () => this.show(this.reading.span[0], this.reading.span[0] + this.to - this.from),
            End: () => this.show(this.reading.span[1] - this.to + this.from, this.reading.span[1]),
            Escape: () => {
                this.mark = null;
                this.draw();
            },
        };
        const step = steps[event.key];
        if (step) {
            step();
            event.preventDefault();
        }
    }

    hover(event, at) {
        if (!this.reading || this.reading.count === 0) return;
        this.pointer = at.x >= this.left ? at : null;
        this.pointerEvent = event;
        const found = this.pointer && event.currentTarget === this.scroller ? this.packetAt(at.x, at.y) : null;
        this.hovered = found;
        this.tell();
        this.draw();
    }

    // The words beside the pointer.
    tell() {
        const found = this.hovered;
        const { reading, tip, pointerEvent: event } = this;
        if (!found || (found.packet < 0 && !found.episode) || found.row.type === 'value' || found.row.type === 'unit') {
            tip.hidden = true;
            return;
        }
        const lines = [];
        if (found.episode) {
            const { episode } = found;
            lines.push(
                ['b', found.row.bit.bit],
                ['span', `${reading.deviceText(episode.device)} ${pageText(episode.page)}`],
            );
            lines.push([
                'span',
                `set at ${reading.timeText(reading.place(episode.first), 6)}, last at ${reading.timeText(reading.place(episode.last), 6)}, ${counted(episode.count, 'read')}`,
            ]);
            lines.push([
                'span',
                episode.gone >= 0 ? `gone at ${reading.timeText(reading.place(episode.gone), 6)}${episode.by ? `, by ${episode.by === 0x79 ? 'STATUS_WORD' : 'STATUS_BYTE'}` : ''}` : 'not read again',
            ]);
        } else {
            const text = reading.text(found.packet);
            lines.push(['b', text ? shortTitle(text.object) : '…'], ['span', text?.says ?? '']);
            lines.push([
                'small',
                `${reading.timeText(reading.place(found.packet), 6)} · packet ${grouped(found.packet)}`,
            ]);
        }
        tip.replaceChildren(...lines.map(([tag, text]) => make(tag, { text })));
        tip.hidden = false;
        const wide = tip.offsetWidth;
        tip.style.left = `${Math.min(window.innerWidth - wide - 8, event.clientX + 14)}px`;
        tip.style.top = `${Math.min(window.innerHeight - tip.offsetHeight - 8, event.clientY + 16)}px`;
    }

    texts() {
        this.draw();
        if (!this.tip.hidden) this.tell();
    }
}
