// A policy as text: its records, and what each row demands, as docs/FORMATS.md says. The program's module takes numbers
// alone, so what a text means is judged here, by the same order of refusals.

const BAD_HEADER = 20;
const BAD_ROW = 21;
const BAD_AFTER = 22;
const PAST_END = 4;
const END_OF_MEMORY = 1n << 56n;
const WANTED_MOMENT = 'a number of publications, or with pmp 3 last, last-N, mml, mmwp, rlb-clear or a name that the '
    + 'script gives a moment';
const FIELDS = ['from', 'to', 'modes', 'kind', 'first', 'last', 'demand'];
const LABELED_FIELDS = ['name', ...FIELDS, 'comment'];
const MODE_BITS = {U: 1, S: 2, M: 8};
const POLICY_KINDS = {...KINDS, any: 3};
const DEMANDS = {never: 0, always: 1, held: 2};

// The records of a CSV, each with its fields and the place in the text where it begins. Blank lines are none.
function recordsOf(text) {
    const reader = new Records();
    for (let place = text.startsWith('\ufeff') ? 1 : 0; place < text.length; place++) reader.take(text[place], place);
    reader.endRecord();
    return reader.records;
}

class Records {
    constructor() {
        this.records = [];
        this.begin();
    }

    begin() {
        this.record = null;
        this.field = '';
        this.state = 'start'; // of a field; else 'plain', 'quoted', or 'closed' behind a quote in a quoted one
    }

    take(letter, place) {
        const isEnd = letter === '\n' || letter === '\r';
        if (this.record === null) {
            if (isEnd) return;
            this.record = {place, fields: []};
        }
        if (this.state === 'quoted') {
            if (letter === '"') this.state = 'closed';
            else this.field += letter;
        } else if (letter === '"' && this.state !== 'plain') {
            if (this.state === 'closed') this.field += letter;
            this.state = 'quoted';
        } else if (letter === ',') {
            this.endField();
        } else if (isEnd) {
            this.endRecord();
        } else {
            this.field += letter;
            this.state = 'plain';
        }
    }

    endField() {
        this.record.fields.push(this.field);
        this.field = '';
        this.state = 'start';
    }

    endRecord() {
        if (this.record === null) return;
        this.endField();
        this.records.push(this.record);
        this.begin();
    }
}

// The policy of a text over a script with these moments: {rows, fault}. Each row is what the module takes, with its
// words, and its name and comment, which may be empty; a fault is {status, row, place, wanted}, with row 0 where it is
// none of a row.
function readPolicy(text, moments, mostBytes) {
    if (encodeText(text).length > mostBytes) {
        return {rows: [], fault: {status: TOO_LONG, row: 0, place: 0, wanted: ''}};
    }
    const [header, ...records] = recordsOf(text);
    const names = [FIELDS, LABELED_FIELDS].find((it) => isHeader(header, it));
    if (names === undefined) {
        const wanted = `The first record has to be ${FIELDS.join()}, or that between name and comment.`;
        return {rows: [], fault: {status: BAD_HEADER, row: 0, place: header?.place ?? 0, wanted}};
    }
    const rows = [];
    for (const {fields, place} of records) {
        const read = readRow(fields, names, moments);
        const row = rows.length + 1;
        if (read.wanted) return {rows: [], fault: {status: read.status, row, place, wanted: read.wanted}};
        rows.push({...read, number: BigInt(row), place});
    }
    return {rows, fault: null};
}

function isHeader(header, names) {
    return header?.fields.length === names.length && header.fields.every((it, place) => it === names[place]);
}

// A row by its fields of these names, or {status, wanted} of the first rule that it breaks.
function readRow(fields, names, moments) {
    if (fields.length !== names.length) {
        return {status: BAD_ROW, wanted: `Wanted: the ${names.length} fields ${names.join()}. Here: ${fields.length}.`};
    }
    const {name = '', comment = '', ...words} = rowOf(names, fields);
    if (hasControl(name)) return {status: BAD_ROW, wanted: 'name has to be a text without control characters.'};
    return {...readDemand(words, comment, moments), words, name, comment};
}

function hasControl(text) {
    return [...text].some((letter) => letter < ' ' || letter === '\x7f');
}

// What a row's words demand, or the first rule that they or the comment break.
function readDemand(words, comment, moments) {
    const bad = (wanted, status = BAD_ROW) => ({status, wanted});
    const [first, last] = [words.first, words.last].map(readNumber);
    const from = moments.read(words.from);
    const to = moments.read(words.to === '' ? `${moments.last}` : words.to);
    const [modes, kind] = [readModes(words.modes), wordIn(POLICY_KINDS, words.kind)];
    const demand = wordIn(DEMANDS, words.demand);
    if (from.status) return bad(`from has to be ${WANTED_MOMENT}.`, from.status);
    if (to.status) return bad(`to has to be ${WANTED_MOMENT}, or empty for all.`, to.status);
    if (words.to !== '' && from.isNumber && to.isNumber && to.at < from.at) return bad('to has to be at least from.');
    if (modes === null) return bad('modes has to be one to three of the letters M, S and U, none twice.');
    if (kind === null) return bad('kind has to be fetch, load, store or any.');
    if (first === null) return bad('first has to be a byte address, a number.');
    if (last === null) return bad('last has to be a byte address, a number.');
    if (last < first) return bad('last has to be at least first.');
    if (demand === null) return bad('demand has to be never, always or held.');
    if (hasControl(comment)) return bad('comment has to be a text without control characters.');
    const asked = momentsBetween(from, to, moments.last);
    if (asked.from > moments.last || asked.to > moments.last) {
        return bad(`The script has no more than ${counted(Number(moments.last), 'publication')}.`, BAD_AFTER);
    }
    if (last >= END_OF_MEMORY) return bad('last has to be below 2^56.', PAST_END);
    return {...asked, first, last, modes, kind, demand};
}

function readModes(word) {
    if (!/^[MSU]{1,3}$/.test(word) || new Set(word).size !== word.length) return null;
    return [...word].reduce((bits, letter) => bits | MODE_BITS[letter], 0);
}

function wordIn(words, word) {
    return Object.hasOwn(words, word) ? words[word] : null;
}
