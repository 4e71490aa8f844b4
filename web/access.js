// One access: how it is decided, why, and its answers at all moments.

const MOST_ROWS = 500;

// The value of a number as scripts have it, or null.
function readNumber(text) {
    if (!/^([0-9]{1,20}|0x[0-9a-fA-F]{1,16})$/.test(text)) return null;
    const value = BigInt(text);
    return value < 1n << 64n ? value : null;
}

// As rows write an address in hexadecimal, but without 0x it is read as decimal.
const isBare = (text) => /^[0-9]{14}$/.test(text);
const AS_DECIMAL = '14 digits without 0x are read as decimal; write 0x before a hexadecimal address.';

// The access that the form's words name, or null where a number is none. It may start at one of the names.
function readAccess([mode, kind, start, length], names) {
    const [first, bytes] = [names.addressOf(start), readNumber(length)];
    return first === null || bytes === null ? null : {mode, kind, start: first, length: bytes};
}

// The decision of a row of `pmp why` in words.
function sayDecision({answer, fault, cause, entry}) {
    const verdict = answer === 'allow' ? 'Allowed' : `Fault ${fault}`;
    if (cause === 'none') return `${verdict}: no entry matches any of its bytes.`;
    if (cause === 'split') return `${verdict}: a partial match, entry ${entry} doesn’t match all of its bytes.`;
    return `${verdict}, by the rule of entry ${entry}.`;
}

class Access {
    // goTo: a function that shows a line of the script
    constructor(unit, names, goTo) {
        this.unit = unit;
        this.names = names;
        this.goTo = goTo;
        this.words = ['mode', 'kind', 'start', 'length'].map(byId);
        this.table = byId('decisions');
        this.groups = [];
    }

    get state() {
        return this.words.map((word) => word.value);
    }

    set state(values) {
        this.words.forEach((word, place) => {
            const known = word.tagName !== 'SELECT' || [...word.options].some((it) => it.value === values[place]);
            if (known) word.value = values[place];
        });
    }

    // Takes the form's access, to be asked about after 0, 1, .. publications of the boot, or single writes.
    take(boot, by) {
        this.boot = boot;
        this.by = by;
        this.access = readAccess(this.state, this.names);
        this.drawn = null; // or the rows of its answers at all moments, as they are drawn, in one text
    }

    answerAt(after) {
        const {access, boot, by} = this;
        if (access === null) return NO_ACCESS;
        return this.unit.why(boot.scriptBy(by), after, access.mode, access.kind, access.start, access.length);
    }

    // Shows the answer at the moment, why it is so, and the answers at all moments.
    show(at) {
        const answer = this.answerAt(at);
        const right = answer.status === 0;
        const note = right && isBare(byId('start').value) ? ` Start: ${AS_DECIMAL}` : '';
        byId('access-now').textContent = (right ? sayDecision(answer.reason) : sayRefusal(answer)) + note;
        byId('access-now').className = right ? '' : 'wrong';
        for (const word of this.words) word.ariaInvalid = String(!right && word.tagName === 'INPUT');
        this.showWhy(answer.reason);
        this.draw(answer.rows);
        this.showNow(at);
    }

    showWhy(reason) {
        const sentences = reason ? sayWhy(this.names.addTo([this.withLines(reason)])[0], this.by) : [];
        fillSentences(byId('why'), sentences, this.goTo);
    }

    // The row with the lines of the page's script, where single writes are asked of one made of it.
    withLines(reason) {
        const lineOf = (line) => (line === '' ? '' : `${this.boot.lineBy(this.by, Number(line))}`);
        const {configured, addressed, lowend} = reason;
        return {...reason, configured: lineOf(configured), addressed: lineOf(addressed), lowend: lineOf(lowend)};
    }

    // The answers at all moments, which no move of the slider changes.
    draw(rows) {
        const drawn = JSON.stringify(rows);
        if (this.drawn === drawn) return;
        this.drawn = drawn;
        this.groups = groupsOf(rows, this.boot.last(this.by)).slice(0, MOST_ROWS);
        const shown = this.groups.map((group) => ({...group.row, n: sayRange(group)}));
        fillTable(this.table, shown, (tr, row) => { tr.className = row.answer; });
        this.table.caption.textContent = `The answer after each ${this.by}`
            + (rows.length > MOST_ROWS ? `; the first ${MOST_ROWS} changes` : '');
    }

    // Which of the rows has the moment.
    showNow(at) {
        this.groups.forEach(({from, to}, place) => {
            this.table.tBodies[0].rows[place].ariaCurrent = String(from <= at && at <= to);
        });
    }
}

// Rows of answers, each with the first moment of a run of equal ones, as {from, to, row}.
function groupsOf(rows, last) {
    const ends = [...rows.slice(1).map(({n}) => Number(n) - 1), last];
    return rows.map((row, place) => ({from: Number(row.n), to: ends[place], row}));
}

function sayRange({from, to}) {
    return from === to ? `${from}` : `${from} to ${to}`;
}
