// The part "Difference": where the script lets the modes do other things than an older one does.

const MOST_DIFFERENCES = 500;

class Differences {
    // kept: a function that gives the script as it is, {name, text}; changed: one that notes the state
    constructor(unit, names, boots, kept, changed) {
        this.unit = unit;
        this.names = names;
        this.boots = boots;
        this.kept = kept;
        this.changed = changed;
        this.area = byId('old-script');
        this.boot = null;
        offerNames(byId('old-name'), boots);
        byId('old-name').value = '';
        this.listen();
    }

    listen() {
        byId('old-name').addEventListener('change', (event) => {
            const name = event.target.value;
            this.put(name === '' ? {text: this.area.value} : {name});
        });
        byId('keep-old').addEventListener('click', () => this.put(this.kept()));
        this.area.addEventListener('input', () => this.put({text: this.area.value}));
        for (const id of ['old-after', 'new-after']) byId(id).addEventListener('input', () => this.put(this.state));
        takeFile(byId('old-file'), byId('differences-part'), (file) => { this.opened = this.openFile(file); });
        byId('old-go').addEventListener('click', () => selectLine(this.area, this.answer.line));
    }

    async openFile(file) {
        if (file.size > data.limits.MAX_SCRIPT) {
            this.show({...NO_ANSWER, status: TOO_LONG, side: 'old'});
            return;
        }
        const {text, told} = await readScript(this.unit, file);
        this.put({text});
        tell(told);
    }

    // What the address has: the name of an example or the text, and how many publications of each are done.
    get state() {
        const name = byId('old-name').value;
        const afters = [byId('old-after').value, byId('new-after').value];
        return {...(name === '' ? {text: this.area.value} : {name}), afters};
    }

    set state({name, text, afters}) {
        const known = Object.hasOwn(this.boots, name ?? '');
        byId('old-name').value = known ? name : '';
        const wanted = known ? this.boots[name] : text ?? '';
        if (this.area.value !== wanted) this.area.value = wanted;
        if (afters) [byId('old-after').value, byId('new-after').value] = afters;
    }

    put(state) {
        this.state = state;
        this.ask(this.boot);
        this.changed();
    }

    // Compares with the boot, or with nothing where there is none without a fault.
    ask(boot) {
        this.boot = boot;
        this.show(boot === null || this.area.value === '' ? null : this.compare());
    }

    // Where a number is empty it is that of all publications.
    compare() {
        const [oldAfter, newAfter] = ['old-after', 'new-after'].map((id) => byId(id).value);
        for (const word of [oldAfter, newAfter]) {
            if (word !== '' && readNumber(word) === null) return {...NO_ANSWER, status: BAD_WORD, side: ''};
        }
        const old = encodeText(this.area.value);
        let done = readNumber(oldAfter);
        if (done === null) {
            const all = this.unit.publications(old);
            if (all.status !== 0) return {...all, side: all.status === MEMORY ? '' : 'old'};
            done = BigInt(all.text);
        }
        return this.unit.diff(old, done, this.boot.script, readNumber(newAfter) ?? BigInt(this.boot.publications));
    }

    show(answer) {
        this.answer = answer;
        const fails = answer !== null && answer.status !== 0;
        byId('old-fault').hidden = !fails;
        const wrong = fails && answer.side === 'old' && answer.status !== BAD_AFTER;
        this.area.ariaInvalid = String(wrong);
        for (const [id, side] of [['old-after', 'old'], ['new-after', 'new']]) {
            const unread = byId(id).value !== '' && readNumber(byId(id).value) === null;
            byId(id).ariaInvalid = String(unread || (fails && answer.status === BAD_AFTER && answer.side === side));
        }
        if (fails) {
            byId('old-fault-line').textContent = saySideFault(answer);
            byId('old-fault-advice').textContent = sayAdvice(answer);
            byId('old-go').hidden = answer.side !== 'old' || answer.line === 0;
        }
        const rows = answer === null || fails ? [] : answer.rows;
        byId('differences-region').hidden = rows.length === 0;
        byId('differences-count').textContent = answer === null || fails ? '' : sayDifferences(rows.length);
        fillTable(byId('differences'), this.names.addTo(rows.slice(0, MOST_DIFFERENCES)), (tr, row) => {
            tr.className = row.change;
        });
    }
}

function sayDifferences(count) {
    if (count === 0) return 'Both let the modes do the same with every byte.';
    return `${counted(count, 'range')} with other rights`
        + (count > MOST_DIFFERENCES ? `; the first ${MOST_DIFFERENCES}:` : ':');
}

// As the program says which of the two scripts is at fault, and where.
function saySideFault(fault) {
    if (fault.status === NO_ANSWER.status) return 'No answer';
    const refused = `refused ${fault.status} ${data.refusals[fault.status].name}`;
    if (fault.side === '') return `Refused ${refused.slice('refused '.length)}`;
    const side = fault.side === 'old' ? 'Old script' : 'New script';
    return fault.line > 0 ? `${side}, line ${fault.line}: ${refused}` : `${side}: ${refused}`;
}
