// ---- the line on top: open, the views, what is open, and how far reading has come

const VIEWS = [['bus', 'Bus'], ['sums', 'Sums'], ['profile', 'Profile'], ['try', 'Try']];

class Header {
    // `acts`: `open` files, `show` a view, `how` the recording is read, `stop` reading, `help`.
    constructor(acts) {
        this.tabs = VIEWS.map(([name, text]) => make(
            'button',
            {
                type: 'button', role: 'tab', id: `tab-${name}`, 'aria-controls': `view-${name}`,
                'aria-selected': 'false', text, onclick: () => acts.show(name),
            },
        ));
        this.recordingName = make('span');
        this.recording = button('', {
            class: 'chip-button', title: 'How the recording is read', 'aria-expanded': 'false',
            'aria-controls': 'how', hidden: true, onclick: () => acts.how(),
        });
        this.recording.append(this.recordingName, sign('down'));
        this.profileName = make('span');
        this.profile = button(
            '',
            {
                class: 'chip-button', title: 'The profile that it is read with', hidden: true,
                onclick: () => acts.show('profile'),
            },
            'device',
        );
        this.profile.append(this.profileName);
        this.status = make('span', { class: 'status', role: 'status' });
        this.cancel = button('Cancel', { class: 'small', hidden: true, onclick: () => acts.stop() });
        this.bar = make(
            'div',
            { class: 'progress', role: 'progressbar', 'aria-label': 'Reading', hidden: true }, make('i'),
        );
        const open = button(
            'Open',
            { class: 'main', title: 'Open a recording or a profile (O)', onclick: () => acts.open() }, 'open',
        );
        const help = button(
            '',
            {
                class: 'round', title: 'Help and keys (?)', 'aria-label': 'Help and keys',
                onclick: () => acts.help(),
            },
            'help',
        );
        this.element = make(
            'header', {}, make('h1', {}, logo(), make('span', { text: 'pmb' })), open, this.tabList(),
            this.recording, this.profile, make('span', { class: 'gap' }), this.status, this.cancel, help, this.bar,
        );
    }

    tabList() {
        const { tabs } = this;
        const list = make('div', { class: 'tabs', role: 'tablist', 'aria-label': 'Views' }, ...tabs);
        list.addEventListener('keydown', (event) => {
            const by = { ArrowRight: 1, ArrowLeft: -1 }[event.key];
            if (!by) return;
            const next = tabs[(tabs.indexOf(document.activeElement) + by + tabs.length) % tabs.length];
            next.focus();
            next.click();
        });
        return list;
    }

    select(view) {
        VIEWS.forEach(([name], i) => {
            this.tabs[i].setAttribute('aria-selected', name === view);
            this.tabs[i].tabIndex = name === view ? 0 : -1;
        });
    }

    // The names of what is open.
    names(recording, profile) {
        this.recording.hidden = recording === null;
        if (recording) this.recordingName.textContent = `${recording.name} · ${SOURCES[recording.source]}`;
        this.profile.hidden = profile === null;
        this.profileName.textContent = profile === null ? '' : profile.origin === 'scan' ? 'made by pmb scan' : profile.name;
        this.profile.title = profile === null ? '' : `The profile that it is read with: ${profile.name}, ${originText(profile)}`;
        document.title = recording ? `${recording.name} · pmb` : 'pmb: what happened on the bus';
    }

    // A share from 0 to 1 of what is being done.
    progress(share, text) {
        this.bar.hidden = false;
        this.cancel.hidden = false;
        this.bar.firstChild.style.width = `${(100 * share).toFixed(1)}%`;
        this.bar.setAttribute('aria-valuenow', Math.round(share * 100));
        this.say(text);
    }

    done() {
        this.bar.hidden = true;
        this.cancel.hidden = true;
    }

    get isDone() {
        return this.bar.hidden;
    }

    say(text) {
        this.status.textContent = text;
    }
}

function logo() {
    return drawn(
        'svg',
        { viewBox: '0 0 22 16', class: 'logo', 'aria-hidden': 'true' },
        drawn('path', { d: 'M1 11.5h3.5v-7h4.5v7h4.5v-7h3.5v7H21' }),
    );
}
