// A boot: a script, what the unit says of it as a whole, and the moments that may be asked of. A moment is {by, at}: at
// publications are done, or where by is "write" so many events, each as if it were a publication of its own.

class Boot {
    constructor(unit, text) {
        this.unit = unit;
        this.script = encodeText(text);
        this.fault = null;
        this.events = []; // in order, each with the line that says it
        this.places = new Map(); // of a line's event in that list
        this.expectations = new Map(); // of a line that expects a value, its row
        this.ends = [0];
        const publications = unit.publications(this.script);
        if (publications.status !== 0) {
            this.fault = publications;
            return;
        }
        const writes = unit.writes(this.script);
        if (writes.status !== 0) {
            this.fault = writes;
            return;
        }
        this.events = writes.rows.filter(isEvent).map(readEvent);
        const expectations = writes.rows.filter((row) => !isEvent(row));
        this.expectations = new Map(expectations.map((row) => [Number(row.line), row]));
        this.places = new Map(this.events.map((event, place) => [event.line, place]));
        this.ends = endsOf(this.events, Number(publications.text));
    }

    get publications() {
        return this.ends.length - 1;
    }

    // How many moments there are but the first.
    last(by) {
        return by === 'write' ? this.events.length : this.publications;
    }

    // How many events are done.
    eventsAt(moment) {
        return moment.by === 'write' ? moment.at : this.ends[moment.at];
    }

    // How many publications are done whole.
    publicationsAt(moment) {
        if (moment.by === 'publication') return moment.at;
        return this.ends.findLastIndex((end) => end <= moment.at);
    }

    scriptBy(by) {
        if (by === 'publication') return this.script;
        this.singly ??= encodeText(this.eachWrite());
        return this.singly;
    }

    // The line of this script that a line of `scriptBy` comes from; 0 for none.
    lineBy(by, line) {
        if (by === 'publication' || line === 0) return line;
        const first = this.head.split('\n').length;
        return this.events[(line - first) / 2].line;
    }

    get head() {
        this.knownHead ??= headOf(this.script);
        return this.knownHead;
    }

    get moments() {
        this.known ??= new Moments(this.mseccfg(), namesIn(this.script));
        return this.known;
    }

    // What mseccfg keeps after each number of publications.
    mseccfg() {
        const {rows} = this.unit.registers(this.script, 0);
        let kept = BigInt(rows.find(({name}) => name === 'mseccfg').value);
        return this.ends.map((end, done) => {
            for (const {register, after} of this.events.slice(done === 0 ? 0 : this.ends[done - 1], end)) {
                if (register === 'mseccfg') kept = BigInt(after);
                else if (register === 'reset') kept = 0n;
            }
            return kept;
        });
    }

    // The script with a publish behind each event, and no other. Its head stays, and its expectations go.
    eachWrite() {
        const statements = this.events.map((event) => `${event.statement}\npublish\n`);
        return `${this.head}${statements.join('')}`;
    }
}

// The words of a script's lines, but of comments and of lines without words.
function significantLines(script) {
    const lines = decodeText(script).split('\n').map((line) => line.match(/[^ \t\r]+/g) ?? []);
    return lines.filter((words) => words.length > 0 && !words[0].startsWith('#'));
}

// The lines of a script that say which unit it has, and what that holds at first: its version, and `hart` and `set`.
function headOf(script) {
    const head = significantLines(script).filter(([word], place) => place === 0 || word === 'hart' || word === 'set');
    return head.map((words) => `${words.join(' ')}\n`).join('');
}

// Whether a row is an event's. An expectation's row has no number.
function isEvent(row) {
    return row.n !== '';
}

function readEvent(row) {
    const {publication, line, register, written, after, effect} = row;
    const statement = register === 'reset' ? 'reset' : `write ${register} ${shortNumber(written)}`;
    return {row, publication: Number(publication), line: Number(line), register, after, effect, statement};
}

// 0x0000000000000019 as 0x19, so that scripts of single writes stay short.
function shortNumber(value) {
    return `0x${BigInt(value).toString(16)}`;
}

// For each number of publications, how many events are done then.
function endsOf(events, publications) {
    const ends = new Array(publications + 1).fill(0);
    for (const event of events) ends[event.publication] += 1;
    for (let place = 1; place <= publications; place++) ends[place] += ends[place - 1];
    return ends;
}
