// The part "Names of addresses": names of ranges of bytes, as docs/FORMATS.md says. Where they are given, each row with
// a range ends with the names of its bytes, and an access may start at a name.

const NAMES_HEADER = 'first,last,name';
const ADDRESS_NAME = /^(?![0-9])[!#-*\--~]{1,64}$/;

// The names of a text: {names, fault}. Each name is {first, last, name}; a fault is {status, line, field}, whose line
// is the number of a row, or 0 where it is none of a row.
function readNames(text, mostBytes) {
    const refused = (status, line = 0, field = '') => ({names: null, fault: {status, line, field}});
    if (encodeText(text).length > mostBytes) return refused(TOO_LONG);
    const [header, ...rows] = text.replace(/\n$/, '').split('\n').map((line) => line.replace(/\r$/, ''));
    if (header !== NAMES_HEADER) return refused(BAD_HEADER);
    const names = rows.map(readName);
    const place = names.findIndex((one) => Object.hasOwn(one, 'wrong'));
    return place < 0 ? {names, fault: null} : refused(BAD_ROW, place + 1, names[place].wrong);
}

// The name that a row gives, or {wrong}: its first field at fault, '' where it doesn't have three.
function readName(row) {
    const [from, to, ...rest] = row.split(',');
    const [first, last, name] = [readNumber(from), readNumber(to ?? ''), rest.join()];
    if (rest.length === 0) return {wrong: ''};
    if (first === null) return {wrong: 'first'};
    if (last === null || last < first) return {wrong: 'last'};
    return ADDRESS_NAME.test(name) ? {first, last, name} : {wrong: 'name'};
}

class Names {
    // changed: a function that shows the answers with the names, and notes the state
    constructor(changed) {
        this.changed = changed;
        this.area = byId('names');
        this.given = null; // or the names, in the text's order
        this.area.addEventListener('input', () => this.put(this.area.value));
        takeFile(byId('names-file'), byId('names-part'), (file) => { this.opened = this.openFile(file); });
        byId('names-go').addEventListener('click', () => selectLine(this.area, this.fault.line + 1));
    }

    async openFile(file) {
        if (file.size > data.limits.MAX_TRACE) {
            tellTooLong(file);
            return;
        }
        const text = decodeText(new Uint8Array(await file.arrayBuffer()));
        this.put(text);
        tellOfText(text);
    }

    put(text) {
        this.text = text;
        this.changed();
    }

    get text() {
        return this.area.value;
    }

    // An empty text gives no names, and no row gets a column.
    set text(text) {
        if (this.area.value !== text) this.area.value = text;
        if (text !== '') byId('names-part').open = true;
        const {names, fault} = text === '' ? {names: null, fault: null} : readNames(this.text, data.limits.MAX_TRACE);
        this.given = names;
        this.showFault(fault);
        for (const head of document.querySelectorAll('th.names')) head.hidden = names === null;
    }

    showFault(fault) {
        this.fault = fault;
        byId('names-fault').hidden = fault === null;
        this.area.ariaInvalid = String(fault !== null);
        if (fault === null) return;
        byId('names-fault-line').textContent = sayRefusal(fault, 'Names row');
        byId('names-fault-advice').textContent = fault.field === '' ? sayAdvice(fault)
            : `Wanted: ${fault.field}: ${data.nameFields[fault.field]}.`;
        byId('names-go').hidden = fault.line === 0;
    }

    // Rows with a range from `first` to `last`, each with its `names` behind it where names are given.
    addTo(rows) {
        return this.given === null ? rows : rows.map((row) => ({...row, names: this.met(row.first, row.last)}));
    }

    // The names of a range between two addresses as rows have them, with the offsets of parts. No range has no names.
    met(...ends) {
        if (!ends.every((end) => /^[0-9a-f]{14}$/.test(end))) return '';
        const [from, to] = ends.map((end) => BigInt(`0x${end}`));
        return this.given.filter(({first, last}) => first <= to && from <= last).map(({first, last, name}) => {
            const isWhole = from <= first && last <= to;
            return isWhole ? name : `${name}+0x${(from > first ? from - first : 0n).toString(16)}`;
        }).join(' ');
    }

    // The address of a number, or where names are given of NAME or NAME+OFFSET, and null of any other word.
    addressOf(word) {
        const number = readNumber(word);
        if (number !== null || this.given === null) return number;
        const [name, ...offset] = word.split('+');
        const first = this.given.find((one) => one.name === name)?.first;
        const bytes = offset.length === 0 ? 0n : readNumber(offset.join('+'));
        return first === undefined || bytes === null ? null : first + bytes;
    }
}
