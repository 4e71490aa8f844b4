// The page: what is asked of the unit at the moment that the sliders name, and where it is shown.

const byId = (id) => document.getElementById(id);
const data = JSON.parse(byId('data').textContent);
const MOST_WRITES = 500;
const SHORT_SCRIPT = 65536; // as many letters are asked of at each key; with more the page waits for a pause
const PAUSE = 300;
const NOTING = 100; // milliseconds
const SIGNS = {ignored: '✕', altered: '≠', wrong: '!', done: '●', expected: '=', differs: '✕'};

function sayRefusal({status, line}, lines = 'Script line') {
    if (status === NO_ANSWER.status) return 'No answer';
    const place = line > 0 ? `${lines} ${line}: refused` : 'Refused';
    return `${place} ${status} ${data.refusals[status].name}`;
}

// What to do about a refusal. The program has as much memory as there is, the page has limits of its own.
function sayAdvice({status}) {
    if (status === NO_ANSWER.status) return '';
    if (status !== MEMORY) return data.refusals[status].advice;
    const {EVENTS, PUBLICATIONS, EXPECTATIONS, MARKS, ROWS, MAX_ANSWER} = data.limits;
    return `The page has room for ${counted(EVENTS, 'event')}, for ${counted(PUBLICATIONS, 'publication')}, of which `
        + `each single write is one where these are asked of, for ${counted(EXPECTATIONS, 'expectation')}, `
        + `for ${counted(MARKS, 'mark')}, for ${counted(ROWS, 'row')} of a plan, `
        + `and for an answer of ${counted(MAX_ANSWER, 'byte')}. The program has no such limits.`;
}

class Page {
    constructor(unit) {
        this.unit = unit;
        this.moment = {by: 'publication', at: 0};
        this.boot = null;
        this.name = '';
        this.opened = Promise.resolve(); // what is being opened, until it is shown
        this.editor = new Editor(byId('script'), byId('gutter'));
        this.picture = new Picture(byId('picture'), data.darkPicture);
        this.names = new Names(() => this.namesChanged());
        const goTo = (line) => this.editor.goTo(line);
        this.access = new Access(unit, this.names, goTo);
        this.findings = new Findings(unit, this.names, goTo);
        const changed = () => this.noteAddress();
        this.demands = new Demands(unit, this.names, data.policies, (moment) => this.goToMoment(moment), changed);
        const kept = () => (this.name === '' ? {text: this.editor.text} : {name: this.name});
        this.differences = new Differences(unit, this.names, data.boots, kept, changed);
        this.plan = new Plan(unit, data.plans, (text, told) => this.openPlanned(text, told), changed);
        this.harts = new Harts(unit, (text, first) => this.openHart(text, first));
        offerNames(byId('boot'), data.boots);
        this.listen();
    }

    listen() {
        byId('boot').addEventListener('change', (event) => this.openBoot(event.target.value));
        byId('file').addEventListener('change', (event) => {
            this.opened = this.openFiles([...event.target.files]);
            event.target.value = '';
        });
        byId('script').addEventListener('input', () => this.edited());
        for (const by of ['publication', 'write']) {
            byId(by).addEventListener('input', (event) => {
                if (this.isAnswered) this.moveTo({by, at: Number(event.target.value)});
            });
            byId(by).addEventListener('change', () => this.noteAddress());
        }
        byId('access').addEventListener('input', () => this.isAnswered && this.accessChanged());
        byId('access').addEventListener('submit', (event) => event.preventDefault());
        byId('runs-part').addEventListener('toggle', () => this.isAnswered && this.showRuns());
        byId('registers-part').addEventListener('toggle', () => this.isAnswered && this.showRegisters());
        byId('all-entries').addEventListener('change', (event) => {
            byId('entries').classList.toggle('some', !event.target.checked);
        });
        byId('runs-part').open = matchMedia('(max-width: 900px)').matches;
        byId('save').addEventListener('click', () => this.picture.save(`pmp-${this.moment.by}-${this.moment.at}.svg`));
        byId('copy').addEventListener('click', () => this.copyReport());
        addEventListener('beforeprint', () => {
            byId('printed').textContent = this.editor.text;
        });
        byId('fault-go').addEventListener('click', () => this.editor.goTo(this.boot.fault.line));
        byId('skip').addEventListener('click', (event) => {
            event.preventDefault();
            byId('answers').focus();
        });
        addEventListener('dragover', (event) => {
            if (event.dataTransfer.types.includes('Files')) event.preventDefault();
        });
        addEventListener('drop', (event) => {
            if (event.dataTransfer.files.length === 0) return;
            event.preventDefault();
            this.opened = this.openFiles([...event.dataTransfer.files]);
        });
        addEventListener('hashchange', () => {
            this.opened = this.openAddress();
        });
    }

    // Whether there is a script, and none of its lines is at fault.
    get isAnswered() {
        return this.boot !== null && this.boot.fault === null;
    }

    // What is opened.

    async openAddress() {
        let state = null;
        let unread = '';
        try {
            state = await readAddress(location.hash);
        } catch {
            unread = 'The address has no state that this page can read.';
        }
        this.names.text = state?.names ?? '';
        if (state?.access) this.access.state = state.access;
        this.demands.state = state?.policy ?? {by: 'publication'};
        this.differences.state = state?.old ?? {afters: ['', '']};
        this.plan.state = state?.plan ?? {mseccfg: 0};
        const own = state?.text !== undefined;
        const known = Object.hasOwn(data.boots, state?.boot);
        const name = known ? state.boot : Object.keys(data.boots)[0];
        if (state !== null && !own && !known) unread = 'The address names a boot that this page doesn’t have.';
        this.open(own ? '' : name, own ? state.text : data.boots[name], state ?? {});
        if (unread !== '') tell(unread);
    }

    openBoot(name) {
        this.open(name, name === '' ? this.editor.text : data.boots[name]);
        this.noteAddress();
    }

    // One file is a script or a log; several are those of harts, of which the first is shown.
    async openFiles(files) {
        if (files.length === 0) return;
        const long = files.find((file) => file.size > data.limits.MAX_SCRIPT);
        if (long) {
            tellTooLong(long);
            return;
        }
        if (files.length === 1 && isPlan(await files[0].text())) {
            await this.plan.openFile(files[0]);
            return;
        }
        const scripts = await Promise.all(files.map((file) => readScript(this.unit, file)));
        this.harts.put(scripts);
        const {text, told} = scripts.length > 1 ? this.harts.scripts[0] : scripts[0];
        this.open('', text);
        if (told !== '') tell(told);
        tellOfText(text);
        this.noteAddress();
    }

    // The script of the plan, which is told of.
    openPlanned(text, told) {
        this.open('', text);
        tell(told);
        this.noteAddress();
    }

    // A hart's script, as the new one beside that of the first hart.
    openHart(text, first) {
        this.open('', text);
        this.differences.put({text: first});
    }

    // Shows the script, at the moment that is wanted, or after all its publications.
    open(name, text, wanted = {}) {
        this.editor.text = text;
        this.moment = {by: wanted.by ?? 'publication', at: wanted.at ?? Infinity};
        this.rename(name);
        this.read();
    }

    rename(name) {
        this.name = name;
        byId('boot').value = name;
    }

    edited() {
        clearTimeout(this.waiting);
        const read = () => {
            this.rename('');
            this.editor.count();
            const last = this.boot.last(this.moment.by);
            if (this.moment.at === last) this.moment = {by: this.moment.by, at: Infinity};
            this.read();
            this.noteAddress();
        };
        if (this.editor.text.length <= SHORT_SCRIPT) read();
        else this.waiting = setTimeout(read, PAUSE);
    }

    // What is asked.

    read() {
        tell('');
        this.boot = new Boot(this.unit, this.editor.text);
        this.showFault(this.boot.fault);
        byId('answers').hidden = this.boot.fault !== null;
        byId('refused').hidden = this.boot.fault === null;
        if (this.boot.fault === null) {
            this.showWrites();
            this.moveTo(this.moment);
        } else {
            const wrong = {kind: 'wrong', sign: SIGNS.wrong};
            this.editor.mark((line) => (line === this.boot.fault.line ? wrong : undefined), 0);
        }
        this.askOfAll();
    }

    // Asks what doesn't depend on the moment, of the script, or of none where it is at fault.
    askOfAll() {
        const boot = this.isAnswered ? this.boot : null;
        for (const part of [this.findings, this.demands, this.differences]) part.ask(boot);
    }

    moveTo(moment) {
        const by = moment.by;
        const anew = by !== this.moment.by || this.boot !== this.shown;
        this.moment = {by, at: Math.min(moment.at, this.boot.last(by))};
        this.shown = this.boot;
        if (anew) this.access.take(this.boot, by);
        this.showMoment();
        this.showAnswers();
        this.markLines(this.boot.eventsAt(this.moment));
    }

    // The moment of a breach, where the sliders are seen and have the focus.
    goToMoment(moment) {
        this.moveTo(moment);
        byId(moment.by).focus();
        this.noteAddress();
    }

    accessChanged() {
        this.access.take(this.boot, this.moment.by);
        this.access.show(this.moment.at);
        this.noteAddress();
    }

    // Shows the same answers with the names as they are now.
    namesChanged() {
        if (this.isAnswered) {
            this.access.take(this.boot, this.moment.by);
            this.showAnswers();
            this.askOfAll();
        }
        this.noteAddress();
    }

    ask(call) {
        return this.unit[call](this.boot.scriptBy(this.moment.by), this.moment.at);
    }

    runs() {
        return this.names.addTo(this.ask('map').rows);
    }

    // What is shown.

    showFault(fault) {
        byId('fault').hidden = fault === null;
        if (fault === null) return;
        byId('fault-line').textContent = sayRefusal(fault);
        byId('fault-advice').textContent = sayAdvice(fault);
        byId('fault-go').hidden = fault.line === 0;
    }

    showMoment() {
        const {boot, moment} = this;
        const done = {publication: boot.publicationsAt(moment), write: boot.eventsAt(moment)};
        for (const by of ['publication', 'write']) {
            byId(by).max = boot.last(by);
            byId(by).value = done[by];
            byId(by).ariaValueText = `${done[by]} of ${boot.last(by)}`;
            byId(`${by}-at`).textContent = byId(by).ariaValueText;
        }
        byId('write-help').hidden = moment.by !== 'write';
    }

    // The last of all, since to scroll the script lays the page out.
    markLines(done) {
        const {events, places, expectations} = this.boot;
        const now = events[done - 1]?.line ?? 0;
        this.editor.mark((line) => {
            const place = places.get(line);
            const effect = events[place]?.effect ?? expectations.get(line)?.effect;
            const kind = effect in SIGNS ? effect : place < done ? 'done' : '';
            return kind === '' ? undefined : {kind, sign: SIGNS[kind]};
        }, now);
        if (now > 0 && done < events.length) this.editor.show(now);
    }

    showAnswers() {
        const picture = this.ask('picture');
        byId('shown').hidden = picture.status !== 0;
        if (picture.status !== 0) {
            byId('moment').textContent = `${sayRefusal(picture)}. ${sayAdvice(picture)}`;
            return;
        }
        this.picture.show(this.names.given === null ? picture.text : withNames(picture.text, this.runs()));
        this.showRuns();
        this.plan.show(this.boot.scriptBy(this.moment.by), this.moment.at);
        this.showEntries();
        this.showRegisters();
        this.access.show(this.moment.at);
        this.sayMoment();
    }

    sayMoment() {
        const {by, at} = this.moment;
        const last = by === 'write' && at > 0 ? ` (${sayEvent(this.boot.events[at - 1])})` : '';
        const names = by === 'write' ? [] : this.boot.moments.namesAt(at);
        const called = names.length === 0 ? '' : ` (${names.join(', ')})`;
        const frozen = byId('entries-count').textContent;
        byId('moment').textContent = `After ${by} ${at}${last}${called}: ${frozen}`;
    }

    showRuns() {
        if (!byId('runs-part').open) return;
        fillTable(byId('runs'), this.runs(), (tr, row) => {
            tr.className = `su${row.surights}`;
        });
    }

    showEntries() {
        const rows = this.names.addTo(this.ask('entries').rows);
        fillTable(byId('entries'), rows, (tr, row) => {
            tr.className = classOfEntry(row);
        });
        const frozen = rows.filter(({lock}) => lock === 'frozen').length;
        const bypassed = rows.filter(({lock}) => lock === 'bypassed').length;
        const hold = rows.filter(({holds}) => holds !== '').length;
        const verb = hold === 1 ? 'holds' : 'hold';
        byId('entries-count').textContent = bypassed > 0
            ? `${bypassed} of ${rows.length} entries locked, all bypassed: RLB is on.`
            : `${frozen} of ${rows.length} entries frozen; ${hold} ${verb}.`;
    }

    showRegisters() {
        if (byId('registers-part').open) fillTable(byId('registers'), this.ask('registers').rows);
    }

    showWrites() {
        const wrong = this.boot.events.filter((event) => event.effect in SIGNS);
        byId('writes-count').textContent = wrong.length === 0
            ? `All of ${counted(this.boot.events.length, 'event')} are stored as written.`
            : `${wrong.length} of ${counted(this.boot.events.length, 'event')}`
                + (wrong.length > MOST_WRITES ? `; the first ${MOST_WRITES}:` : ':');
        const differing = [...this.boot.expectations.values()].filter(({effect}) => effect === 'differs');
        if (differing.length > 0) {
            byId('writes-count').prepend(`Expected values that differ: ${differing.length}. `);
        }
        const rows = [...wrong.map((event) => event.row), ...differing].slice(0, MOST_WRITES)
            .sort((one, other) => one.line - other.line);
        byId('writes').hidden = rows.length === 0;
        fillTable(byId('writes'), rows, (tr, row, cells) => {
            const line = Number(row.line);
            tr.className = row.effect;
            makeButton(cells.line, `Line ${line} of the script`, () => this.editor.goTo(line));
        });
        const reasons = new Set(rows.flatMap((row) => row.reasons.match(/[a-z]+/g) ?? []));
        fillTexts(byId('reasons'), [...reasons].map((reason) => [reason, data.reasons[reason]]));
    }

    async copyReport() {
        try {
            await navigator.clipboard.writeText(reportOf(this));
            tell('The report is on the clipboard.');
        } catch {
            tell('The browser doesn’t let this page write to the clipboard.');
        }
    }

    // A browser takes few changes of the address in a second, so those that come soon after one another are one.
    noteAddress() {
        this.noting ??= new Promise((go) => setTimeout(go, NOTING)).then(() => {
            this.noting = null;
            return this.writeAddress();
        });
        return this.noting;
    }

    async writeAddress() {
        const {access, demands, differences, moment, names, plan} = this;
        const state = {boot: this.name, text: this.editor.text, ...moment, access: access.state, names: names.text};
        [state.plan, state.policy, state.old] = [plan.state, demands.state, differences.state];
        const address = await addressOf(state);
        history.replaceState(null, '', address === '' ? location.pathname + location.search : address);
        if (address === '') tell('The texts are too long for the address: send them beside a link.');
    }
}

function sayEvent({line, register, effect}) {
    return `line ${line}: ${register}${register === effect ? '' : ` ${effect}`}`;
}

function classOfEntry({matching, lock, address, holds}) {
    if (lock === '-' && address === '-' && matching === 'off') return 'open-off';
    if (holds !== '') return 'holds';
    return lock;
}
