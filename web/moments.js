// The moments of a script, each a number of publications, as the words of a policy say them: docs/FORMATS.md. The
// module takes numbers alone, and tells what mseccfg keeps.

const NO_MOMENT = 58;
const NAME = /^[A-Za-z][A-Za-z0-9_.]{0,63}$/;
const TAKEN = ['last', 'mml', 'mmwp', 'rlb'];
const LASTING = {mml: {bit: 0n, value: 1n}, mmwp: {bit: 1n, value: 1n}, 'rlb-clear': {bit: 2n, value: 0n}};

class Moments {
    // mseccfg: what it keeps after each number of publications, from 0 on; names: of moments, with their numbers, or null
    // where the script's version has none
    constructor(mseccfg, names) {
        this.mseccfg = mseccfg;
        this.names = names;
    }

    get last() {
        return BigInt(this.mseccfg.length - 1);
    }

    // The names of a moment, in the order of lines.
    namesAt(done) {
        return [...this.names ?? []].filter(([, at]) => at === done).map(([name]) => name);
    }

    // The first moment from which a bit has the value to the end, or null.
    lastingFrom({bit, value}) {
        const first = this.mseccfg.findLastIndex((kept) => (kept >> bit & 1n) !== value) + 1;
        return first < this.mseccfg.length ? BigInt(first) : null;
    }

    // What a word says: {at}, which is null where it never comes, {isNumber} and {isWaived}, or {status} of its refusal.
    read(word) {
        const number = readNumber(word);
        if (number !== null) return {at: number, isNumber: true, isWaived: false};
        if (this.names === null) return {status: BAD_ROW};
        const isWaived = word.endsWith(' if-any');
        return {...this.named(isWaived ? word.slice(0, -' if-any'.length) : word), isNumber: false, isWaived};
    }

    named(word) {
        if (word === 'last') return {at: this.last};
        if (Object.hasOwn(LASTING, word)) return {at: this.lastingFrom(LASTING[word])};
        if (word.startsWith('last-')) {
            const back = readNumber(word.slice('last-'.length));
            if (back === null) return {status: BAD_ROW};
            return {at: back > this.last ? null : this.last - back};
        }
        if (!NAME.test(word) || TAKEN.includes(word)) return {status: BAD_ROW};
        return this.names.has(word) ? {at: BigInt(this.names.get(word))} : {status: NO_MOMENT};
    }
}

// What a policy's row asks of that goes from one moment to the other: numbers, or that it is unmet, which its words may
// allow.
function momentsBetween(from, to, last) {
    if (from.at !== null && to.at !== null && (from.at <= to.at || from.at > last)) {
        return {from: from.at, to: to.at, isUnmet: false, isWaived: false};
    }
    return {from: last, to: last, isUnmet: true, isWaived: from.isWaived || to.isWaived};
}

// The names that a script without a fault gives its moments, and null where its version has none.
function namesIn(script) {
    const [[, version], ...statements] = significantLines(script);
    if (version !== '3') return null;
    const names = new Map();
    let done = 0;
    for (const [word, name] of statements) {
        if (word === 'publish') done += 1;
        if (name !== undefined && ['mark', 'publish'].includes(word)) names.set(name, done);
    }
    return names;
}
