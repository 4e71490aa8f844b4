// The part "Plan": what a plan asks for ranges of bytes, whether the registers at the moment meet it, and the script
// that makes registers which do. What a text means as a plan the module says.

const PLAN_HEADER = 'first,last,m,su,locked,name';
const MOST_PLAN_ROWS = 500;
const MSECCFG_BITS = {'plan-mml': 1, 'plan-mmwp': 2, 'plan-rlb': 4};
const REST = '0'; // the number of the verdict on the bytes of no row

// Whether a text begins as a plan does.
const isPlan = (text) => text.split('\n', 1)[0].replace(/\r$/, '') === PLAN_HEADER;

// What a verdict's byte has: by which entry, the rights of M, those of S and U, and whether it is held; or ''.
function sayUnmet({verdict, owner, mrights, surights, held}) {
    if (verdict === 'met') return '';
    const by = owner === '-' ? 'no entry' : `entry ${owner}`;
    return `${by}: ${mrights}, ${surights}, ${held === 'yes' ? 'held' : 'not held'}`;
}

// A verdict as it is shown, with what the row of that number among the plan's lines asks for.
function planRow(judged, lines) {
    const {row, verdict, byte} = judged;
    const has = sayUnmet(judged);
    const fields = PLAN_HEADER.split(',');
    if (row === REST) return {row: '-', verdict, ...blankRow(fields), name: 'bytes of no row', byte, has};
    return {row, verdict, ...rowOf(fields, lines[Number(row)].split(',')), byte, has};
}

class Plan {
    // opened: a function that opens a script, and tells of it; changed: one that notes the state
    constructor(unit, plans, opened, changed) {
        this.unit = unit;
        this.plans = plans;
        this.opened = opened;
        this.changed = changed;
        this.area = byId('plan');
        this.script = null;
        offerNames(byId('plan-name'), plans);
        byId('plan-name').value = '';
        this.listen();
    }

    listen() {
        byId('plan-name').addEventListener('change', (event) => {
            const name = event.target.value;
            this.put(name === '' ? {text: this.area.value} : {name});
        });
        this.area.addEventListener('input', () => this.put({text: this.area.value}));
        for (const id of Object.keys(MSECCFG_BITS)) byId(id).addEventListener('change', () => this.put(this.state));
        takeFile(byId('plan-file'), byId('plan-part'), (file) => { this.reading = this.openFile(file); });
        byId('plan-go').addEventListener('click', () => selectLine(this.area, this.fault.line + 1));
        byId('plan-make').addEventListener('click', () => this.make());
    }

    async openFile(file) {
        if (file.size > data.limits.MAX_SCRIPT) {
            tellTooLong(file);
            return;
        }
        const text = decodeText(new Uint8Array(await file.arrayBuffer()));
        this.put({text});
        tellOfText(text);
    }

    // What the address has: the name of an example or the text, and the bits of mseccfg.
    get state() {
        const name = byId('plan-name').value;
        return {...(name === '' ? {text: this.area.value} : {name}), mseccfg: this.mseccfg};
    }

    set state({name, text, mseccfg}) {
        const known = Object.hasOwn(this.plans, name ?? '');
        byId('plan-name').value = known ? name : '';
        const wanted = known ? this.plans[name] : text ?? '';
        if (this.area.value !== wanted) this.area.value = wanted;
        if (wanted !== '') byId('plan-part').open = true;
        if (mseccfg === undefined) return;
        for (const [id, bit] of Object.entries(MSECCFG_BITS)) byId(id).checked = (mseccfg & bit) !== 0;
    }

    // The text as the module takes it, the same until it changes.
    get bytes() {
        const text = this.area.value;
        if (this.known?.text !== text) this.known = {text, bytes: encodeText(text)};
        return this.known.bytes;
    }

    // The value of mseccfg that the plan's script is to leave.
    get mseccfg() {
        return Object.entries(MSECCFG_BITS).reduce((sum, [id, bit]) => sum + (byId(id).checked ? bit : 0), 0);
    }

    put(state) {
        this.state = state;
        if (this.script !== null) this.show(this.script, this.after);
        this.changed();
    }

    // Judges the registers that the script leaves after so many publications.
    show(script, after) {
        [this.script, this.after] = [script, after];
        byId('plan-unmade').textContent = '';
        const given = this.area.value !== '';
        const answer = given ? this.unit.meets(script, after, this.bytes) : null;
        const fails = given && answer.status !== 0;
        this.showFault(fails ? answer : null);
        this.draw(given && !fails ? answer.rows : []);
        byId('plan-make').disabled = !given || fails;
    }

    draw(verdicts) {
        byId('plan-region').hidden = verdicts.length === 0;
        byId('plan-count').textContent = verdicts.length === 0 ? '' : sayMet(verdicts);
        const lines = this.area.value.split('\n').map((line) => line.replace(/\r$/, ''));
        const rows = verdicts.map((verdict) => planRow(verdict, lines));
        const shown = rows.length > MOST_PLAN_ROWS ? [...rows.slice(0, MOST_PLAN_ROWS), rows.at(-1)] : rows;
        fillTable(byId('plan-rows'), shown, (tr, row) => {
            tr.className = row.verdict === 'met' ? 'holds' : 'unmet';
        });
    }

    showFault(fault) {
        this.fault = fault;
        byId('plan-fault').hidden = fault === null;
        this.area.ariaInvalid = String(fault !== null);
        if (fault === null) return;
        byId('plan-fault-line').textContent = sayRefusal(fault, 'Plan row');
        byId('plan-fault-advice').textContent = sayPlanAdvice(fault);
        byId('plan-go').hidden = fault.line === 0;
    }

    // Opens the script of the plan for the script's hart, or says why there is none.
    make() {
        const answer = this.unit.plan(this.script, this.bytes, this.mseccfg);
        if (answer.status !== 0) {
            byId('plan-unmade').textContent = `${sayRefusal(answer, 'Plan row')}. ${sayAdvice(answer)}`;
            return;
        }
        const options = Object.keys(MSECCFG_BITS).filter((id) => byId(id).checked).map((id) => ` --${id.slice(5)}`);
        this.opened(answer.text, `This is the plan’s script, as “pmp plan${options.join('')}” writes it for the hart `
            + 'of the script before.');
    }
}

// What is wanted of a plan, where a refusal says that of several texts.
function sayPlanAdvice(fault) {
    if (fault.status === BAD_HEADER) return `Wanted: the first line ${PLAN_HEADER}.`;
    if (fault.status === BAD_ROW) return `Wanted: ${PLAN_HEADER}, each in its form: see “Fields of a plan”.`;
    return sayAdvice(fault);
}

// How many rows are met, and whether the bytes of no row are as they would be without entries.
function sayMet(verdicts) {
    const [rows, rest] = [verdicts.slice(0, -1), verdicts.at(-1)];
    const met = rows.filter(({verdict}) => verdict === 'met').length;
    const all = rest.verdict === 'met' ? '' : 'not all ';
    return `${met} of ${counted(rows.length, 'row')} met; bytes of no row are ${all}as without entries`
        + (rows.length > MOST_PLAN_ROWS ? `; the first ${MOST_PLAN_ROWS} rows:` : '.');
}
