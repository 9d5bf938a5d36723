// ---- the counts on top

class Tiles {
    // `acts`: `filter` shows the rows of a kind in the table, `how` how the recording is read.
    constructor(acts) {
        this.acts = acts;
        this.key = '';
        this.element = make('div', { class: 'tiles', role: 'group', 'aria-label': 'Counts' });
    }

    show(reading, source) {
        const list = this.list(reading, source);
        const key = list.map((it) => it.textContent + it.className).join();
        if (key === this.key) return;
        this.key = key;
        const at = [...this.element.children].indexOf(document.activeElement);
        this.element.replaceChildren(...list);
        if (at >= 0) this.element.children[at]?.focus();
    }

    list(reading, source) {
        const { kinds, summary } = reading;
        const packets = summary.end ? summary.end.packets : reading.packets;
        const devices = [...reading.lanes.keys()].filter((it) => it !== NO_DEVICE).length;
        const against = kinds[6] + kinds[7];
        const faults = faultsOf(bitsOf(reading));
        return [
            this.tile(grouped(packets), packets === 1 ? 'packet' : 'packets', '', 'Whole packets'),
            this.tile(
                String(devices), devices === 1 ? 'device' : 'devices', '', 'Addresses that packets went to',
            ),
            this.length(reading, source),
            this.tile(
                grouped(kinds[3]), 'NACKed', kinds[3] ? 'warn' : 'zero',
                'Packets in which a device did not acknowledge. Show them', () => this.acts.filter('refused'),
            ),
            this.tile(
                grouped(against),
                against === 1 ? 'protocol error' : 'protocol errors', against ? 'bad' : 'zero',
                'Events that no packet allows there, and words that are no token. Show them',
                () => this.acts.filter('refusal'),
            ),
            this.tile(
                grouped(faults), faults === 1 ? 'fault' : 'faults', faults ? 'bad' : 'zero',
                'Status bits that were read set and are faults. Show these reads', () => this.acts.filter('fault'),
            ),
        ];
    }

    length(reading, source) {
        if (reading.hasTimes && reading.count > 0) {
            const [from, to] = reading.span;
            return this.tile(lengthText(to - from), 'recorded', '', 'From the first packet to the last');
        }
        const wantsRate = source === 'sigrok';
        const why = reading.backwards >= 0 ? 'times go backwards' : 'no times';
        return this.tile(
            '–', `${why}: shown in their order`, 'muted',
            wantsRate ? 'Give the sample rate to have times' : '', wantsRate ? () => this.acts.how() : null,
        );
    }

    tile(value, text, kind, title, act = null) {
        return make(
            act ? 'button' : 'div',
            { class: `tile ${kind}`, title, ...(act ? { type: 'button', onclick: act } : {}) },
            make('b', { text: value }), make('span', { text }),
        );
    }
}
