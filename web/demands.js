// The part "Policy": what a policy demands of the script, and how each of its rows is judged.

const MOST_DEMANDS = 500;
const SLICE = 12; // milliseconds after which the page may answer before further verdicts
const PACES = {publication: 0, write: 1};

// A row's demand in words, behind its name and before its comment.
function sayDemand({words: {from, to, modes, kind, first, last, demand}, name, comment}) {
    const moments = `from ${from} on${to === '' ? '' : `, up to ${to}`}`;
    const front = name === '' ? '' : `${name}: `;
    return `${front}${demand} ${modes} ${kind} ${first} to ${last}, ${moments}${comment === '' ? '' : `; ${comment}`}`;
}

class Demands {
    // moved: a function that takes the moment of a breach; changed: one that notes the state
    constructor(unit, names, policies, moved, changed) {
        this.unit = unit;
        this.names = names;
        this.policies = policies;
        this.moved = moved;
        this.changed = changed;
        this.area = byId('policy');
        this.turn = 0;
        this.boot = null;
        this.fault = null;
        this.finished = Promise.resolve();
        offerNames(byId('policy-name'), policies);
        byId('policy-name').value = '';
        this.listen();
    }

    listen() {
        byId('policy-name').addEventListener('change', (event) => {
            const name = event.target.value;
            this.put(name === '' ? {text: this.area.value} : {name});
        });
        this.area.addEventListener('input', () => this.put({text: this.area.value}));
        byId('each-write').addEventListener('change', () => this.put(this.state));
        byId('policy-go').addEventListener('click', () => this.goTo(this.fault.place));
    }

    // By whose number breaches are told.
    get by() {
        return byId('each-write').checked ? 'write' : 'publication';
    }

    // What the address has: the name of an example or the text, and the pace.
    get state() {
        const name = byId('policy-name').value;
        return {...(name === '' ? {text: this.area.value} : {name}), by: this.by};
    }

    put(state) {
        this.state = state;
        this.ask(this.boot);
        this.changed();
    }

    set state({name, text, by}) {
        const known = Object.hasOwn(this.policies, name ?? '');
        byId('policy-name').value = known ? name : '';
        const wanted = known ? this.policies[name] : text ?? '';
        if (this.area.value !== wanted) this.area.value = wanted;
        if (by) byId('each-write').checked = by === 'write';
    }

    // Begins to judge the boot, or nothing where there is none without a fault. What was asked before is given up.
    ask(boot) {
        this.turn += 1;
        this.boot = boot;
        this.verdicts = [];
        this.broken = 0;
        const asked = boot !== null && this.area.value !== '';
        const {rows, fault} = asked ? readPolicy(this.area.value, boot.moments, data.limits.MAX_TRACE)
            : {rows: [], fault: null};
        this.showFault(fault);
        byId('verdicts-region').hidden = rows.length === 0;
        byId('verdicts-count').textContent = !asked || fault ? '' : 'The policy has no rows, so it holds.';
        this.finished = rows.length === 0 ? Promise.resolve() : this.judgeAll(rows, this.turn);
    }

    // In slices, so that the page answers meanwhile.
    async judgeAll(rows, turn) {
        const by = this.by;
        byId('verdicts').setAttribute('aria-busy', 'true');
        let until = 0;
        for (const row of rows) {
            if (performance.now() >= until) {
                byId('verdicts-count').textContent = `${this.verdicts.length} of ${counted(rows.length, 'row')} so far`;
                await new Promise((go) => setTimeout(go));
                if (turn !== this.turn) return;
                until = performance.now() + SLICE;
            }
            const answer = this.answerOf(row, by);
            if (answer.status !== 0) {
                this.showFault({...answer, row: Number(row.number), place: row.place, wanted: sayAdvice(answer)});
                break;
            }
            const [verdict] = answer.rows;
            this.verdicts.push({...verdict, demand: sayDemand(row)});
            if (!row.isWaived && verdict.verdict !== 'holds') this.broken += 1;
        }
        this.draw(by);
        if (this.fault === null) this.showNote(rows);
        byId('verdicts').setAttribute('aria-busy', 'false');
    }

    // The module's, or where the row's moments don't come, that it is unmet.
    answerOf(row, by) {
        if (row.isUnmet) return {status: 0, rows: [this.unit.unmet(row.number)]};
        return this.unit.verdict(this.boot.script, {...row, pace: PACES[by]});
    }

    draw(by) {
        const table = byId('verdicts');
        byId('verdicts-region').hidden = this.fault !== null;
        if (this.fault !== null) {
            byId('verdicts-count').textContent = '';
            return;
        }
        const unmet = this.verdicts.some(({verdict}) => verdict === 'unmet') ? ' or unmet' : '';
        byId('verdicts-count').textContent = `${this.broken} of ${counted(this.verdicts.length, 'row')} broken${unmet}`
            + (this.verdicts.length > MOST_DEMANDS ? `; the first ${MOST_DEMANDS} rows:` : '.');
        table.caption.textContent = 'Each row of the policy with its first breach, in time and then in address: '
            + `after so many ${by === 'write' ? 'events' : 'publications'}. Entry - is none.`;
        fillTable(table, this.names.addTo(this.verdicts.slice(0, MOST_DEMANDS)), (tr, row, cells) => {
            tr.className = row.verdict;
            if (row.done === '') return;
            const at = Number(row.done);
            makeButton(cells.done, `Row ${row.n}: go to ${by} ${at}`, () => this.moved({by, at}));
        });
    }

    // The first row with an address that may not be what its writer meant.
    showNote(rows) {
        const bare = rows.find(({words: {first, last}}) => isBare(first) || isBare(last));
        if (bare) byId('verdicts-count').textContent += ` Row ${bare.number}: ${AS_DECIMAL}`;
    }

    showFault(fault) {
        this.fault = fault;
        byId('policy-fault').hidden = fault === null;
        this.area.ariaInvalid = String(fault !== null);
        if (fault === null) return;
        byId('policy-fault-line').textContent = sayPolicyFault(fault);
        byId('policy-fault-wanted').textContent = fault.wanted;
        byId('policy-go').hidden = fault.status === TOO_LONG;
    }

    // Selects the line that begins at the place.
    goTo(place) {
        const length = this.area.value.slice(place).search(/[\r\n]|$/);
        this.area.focus();
        this.area.setSelectionRange(place, place + length);
    }
}

function sayPolicyFault({status, row}) {
    if (status === NO_ANSWER.status) return 'No answer';
    const place = row > 0 ? `Policy row ${row}: refused` : 'Policy: refused';
    return `${place} ${status} ${data.refusals[status].name}`;
}
