// The unit: the proved module, and what it is asked. Each answer is {status, line, text}: status 0 and a text as the
// program writes it, or the number of a refusal, with the script's line that is at fault, or 0. An answer that lists
// something has `rows` too: objects with the names of the columns as keys, in the order of the columns.
//
// The module's memory has two rooms for scripts, or a log or a plan, each its length and its bytes, one for a demand,
// and one for an answer: a line, a length, and bytes. They stand behind all that the module has of its own. Its
// addresses have 64 bits, so they are BigInts.

const WORD = 8;
const WASM_PAGE = 65536;
const DEMAND = 5 * WORD + 4 * 4;
const OF_THE_OTHER = 256; // is added to the status where the new of two scripts, or a plan, is at fault
const TOO_LONG = 17;
const BAD_WORD = 24;
const MEMORY = 40;
const MODES = {U: 0, S: 1, M: 3};
const KINDS = {fetch: 0, load: 1, store: 2};
const VIEWS = {map: 0, picture: 1, entries: 2, registers: 3};
const ROW_KINDS = {runs: 0, entries: 1, events: 2, verdicts: 3, findings: 4, differences: 5, reasons: 6, answers: 7};
// The columns of rows that are of no kind of these.
const REGISTERS = ['name', 'value'];
const MEETS = ['row', 'verdict', 'byte', 'owner', 'mrights', 'surights', 'held'];
// In the order in which they are tried: a dump could be read as gdb's registers.
const LOG_FORMATS = {qemu: 0, dump: 4, gdb: 1, openocd: 2, spike: 3};
const NO_ANSWER = {status: -1, line: 0, text: ''};
const NO_ACCESS = {status: BAD_WORD, line: 0, text: '', rows: []};

class Unit {
    // limits: those that the module has; told: a function that takes what happened
    constructor(module, limits, told) {
        this.module = module;
        this.limits = limits;
        this.told = told;
        this.traps = 0;
        this.begin();
        this.columns = this.askColumns();
    }

    // A module as it is at first, with rooms behind it.
    begin() {
        this.exports = new WebAssembly.Instance(this.module).exports;
        const {memory, __heap_base: base} = this.exports;
        this.script = Math.ceil(Number(base.value) / WORD) * WORD;
        this.other = this.script + WORD + this.limits.MAX_SCRIPT;
        this.demand = this.other + WORD + this.limits.MAX_SCRIPT;
        this.answer = this.demand + DEMAND;
        const end = this.answer + 2 * WORD + this.limits.MAX_ANSWER;
        const missing = Math.ceil((end - memory.buffer.byteLength) / WASM_PAGE);
        if (missing > 0) memory.grow(BigInt(missing));
        this.memory = memory;
        this.held = new Map(); // what script a room has
    }

    // The names of the columns of each kind of rows.
    askColumns() {
        const namesOf = (number) => linesIn(this.call('columns', [], [number]).text);
        return Object.fromEntries(Object.entries(ROW_KINDS).map(([kind, number]) => [kind, namesOf(number)]));
    }

    publications(script) {
        return this.ask('publications', script);
    }

    writes(script) {
        return withRows(this.ask('writes', script), this.columns.events);
    }

    lint(script) {
        return withRows(this.ask('lint', script), this.columns.findings);
    }

    map(script, after) {
        return withRows(this.ask('view', script, BigInt(after), VIEWS.map), this.columns.runs);
    }

    picture(script, after) {
        return this.ask('view', script, BigInt(after), VIEWS.picture);
    }

    entries(script, after) {
        return withRows(this.ask('view', script, BigInt(after), VIEWS.entries), this.columns.entries);
    }

    registers(script, after) {
        return withRows(this.ask('view', script, BigInt(after), VIEWS.registers), REGISTERS, ' ');
    }

    // The script of a log, which has the room of a script.
    importLog(log, format) {
        return this.ask('import', log, LOG_FORMATS[format]);
    }

    // The `reason`, a row that says how an access is decided and why, and the rows of its answers at all moments. start
    // and length are BigInts, which a module would take modulo 2^64.
    why(script, after, mode, kind, start, length) {
        if (start >> 64n !== 0n || length >> 64n !== 0n) return NO_ACCESS;
        const answer = this.ask('why', script, BigInt(after), MODES[mode], KINDS[kind], start, length);
        const end = answer.text.indexOf('\n') + 1; // of the reason
        const [reason] = rowsIn(answer.text.slice(0, end), this.columns.reasons);
        return {...answer, reason, rows: rowsIn(answer.text.slice(end), this.columns.answers)};
    }

    // The verdict row of one row of a policy: {number, from, to, first, last}, which are BigInts, and {modes, kind,
    // demand, pace}, which are numbers.
    verdict(script, row) {
        const view = new DataView(this.memory.buffer);
        [row.number, row.from, row.to, row.first, row.last].forEach((word, place) => {
            view.setBigUint64(this.demand + place * WORD, word, true);
        });
        [row.modes, row.kind, row.demand, row.pace].forEach((word, place) => {
            view.setUint32(this.demand + 5 * WORD + place * 4, word, true);
        });
        return withRows(this.ask('verdict', script, BigInt(this.demand)), this.columns.verdicts);
    }

    // The verdict row where the moments of a policy's row don't come. The module, which takes numbers, isn't asked.
    unmet(number) {
        return {...blankRow(this.columns.verdicts), n: `${number}`, verdict: 'unmet'};
    }

    // The rows of a difference, or a refusal with the side that is at fault, "old" or "new", or "" where none is.
    diff(old, oldAfter, script, newAfter) {
        const words = [BigInt(this.script), oldAfter, BigInt(this.other), newAfter];
        const asked = this.call('diff', [[this.script, old], [this.other, script]], words);
        const answer = withRows(asked, this.columns.differences);
        if (answer.status >= OF_THE_OTHER) return {...answer, status: answer.status - OF_THE_OTHER, side: 'new'};
        return {...answer, side: answer.status === MEMORY ? '' : 'old'};
    }

    // The verdicts on a plan's rows by the registers at the moment, or a refusal, whose line is the plan's row.
    meets(script, after, plan) {
        const words = [BigInt(this.script), BigInt(after), BigInt(this.other)];
        return withRows(this.askOfPlan('meets', script, plan, words), MEETS);
    }

    // The script of a plan for the script's hart and this value of mseccfg, or a refusal.
    plan(script, plan, mseccfg) {
        return this.askOfPlan('plan', script, plan, [BigInt(this.script), BigInt(this.other), mseccfg]);
    }

    askOfPlan(name, script, plan, words) {
        const answer = this.call(name, [[this.script, script], [this.other, plan]], words);
        return {...answer, status: answer.status % OF_THE_OTHER};
    }

    // A call of an export whose first parameter is the script's room.
    ask(name, script, ...words) {
        return this.call(name, [[this.script, script]], [BigInt(this.script), ...words]);
    }

    // A call of an export whose last parameter is the answer's room, with scripts in their rooms. Where the module
    // traps, which no call is meant to do, that is told, and the next one asks a module that is begun anew.
    call(name, scripts, words) {
        const long = scripts.findIndex(([, script]) => script.length > this.limits.MAX_SCRIPT);
        if (long >= 0) return {status: TOO_LONG + long * OF_THE_OTHER, line: 0, text: ''};
        try {
            for (const [room, script] of scripts) this.put(room, script);
            return this.read(this.exports[`tilvenka_page_${name}`](...words, BigInt(this.answer)));
        } catch (trap) {
            if (!(trap instanceof WebAssembly.RuntimeError)) throw trap;
            this.traps += 1;
            this.begin();
            this.told(`The module stopped (${trap.message}) where it was asked for “${name}”, which it never should. `
                + 'It was started anew; please report the script.');
            return NO_ANSWER;
        }
    }

    // No call changes a script's room, so it is filled once for each script.
    put(room, script) {
        const view = new DataView(this.memory.buffer);
        view.setBigUint64(this.answer, 0n, true);
        view.setBigUint64(this.answer + WORD, 0n, true);
        if (this.held.get(room) === script) return;
        view.setBigUint64(room, BigInt(script.length), true);
        new Uint8Array(this.memory.buffer, room + WORD, script.length).set(script);
        this.held.set(room, script);
    }

    read(status) {
        const view = new DataView(this.memory.buffer);
        const line = Number(view.getBigUint64(this.answer, true));
        if (status !== 0) return {status, line, text: ''};
        const length = Number(view.getBigUint64(this.answer + WORD, true));
        return {status, line: 0, text: decodeText(new Uint8Array(this.memory.buffer, this.answer + 2 * WORD, length))};
    }
}

// An answer with the rows that its text lists.
function withRows(answer, columns, parting = ',') {
    return {...answer, rows: rowsIn(answer.text, columns, parting)};
}

// rowsIn("a,b\nc,d\n", ["one", "other"]): [{one: "a", other: "b"}, {one: "c", other: "d"}]
function rowsIn(text, columns, parting = ',') {
    return linesIn(text).map((line) => rowOf(columns, line.split(parting)));
}

function rowOf(columns, cells) {
    const row = {};
    columns.forEach((name, place) => { row[name] = cells[place]; });
    return row;
}

function blankRow(columns) {
    return rowOf(columns, columns.map(() => ''));
}

// The lines of a text in which each ends with LF.
function linesIn(text) {
    return text.split('\n').slice(0, -1);
}
