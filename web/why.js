// Why an access is decided as it is: the row of `pmp why` as sentences. A sentence is a list of texts, and of numbers of
// lines, which are buttons.

const TABLES = {
    plain: 'read by the plain rule, since MML is 0: they bind S-mode and U-mode, and M-mode if L is 1',
    smepmp: 'read by the truth table of Smepmp, since MML is 1',
};

// The row, with the names of the entry's bytes where names are given.
function sayWhy(reason, by) {
    const {since, entry, matching, bits, table, names} = reason;
    const moment = since === '0' ? 'It has been so from the start.' : `It has been so since ${by} ${since}.`;
    if (entry === '') return [[moment]];
    const [from, to] = [reason.first, reason.last].map((address) => `0x${BigInt(`0x${address}`).toString(16)}`);
    const rule = [...bits].map((bit, place) => `${'LRWX'[place]} = ${bit}`).join(', ');
    return [
        [moment],
        [`Entry ${entry} is ${matching.toUpperCase()} and matches ${from} to ${to}${names ? `: ${names}` : ''}.`],
        [`Its bits are ${rule}, ${TABLES[table]}.`],
        [sayLock(reason)],
        sayLines([
            ['its configuration byte', reason.configured],
            ['its address register', reason.addressed],
            ['the low end of its range', reason.lowend],
        ]),
    ];
}

function sayLock({lock, held, entry}) {
    if (lock === '-') return 'It isn’t locked.';
    if (lock === 'bypassed') return 'It is locked, but bypassed: RLB is 1.';
    if (held !== 'held') return 'It is frozen, but not held: an entry before it isn’t frozen.';
    return `It is frozen, and held: ${entry === '0' ? 'no entry is before it' : 'all entries before it are frozen too'}.`;
}

// What changed each of these parts last. One without a line is no part of the entry.
function sayLines(parts) {
    const told = parts.filter(([, line]) => line !== '').map(([part, line]) =>
        (line === '0' ? [`${part} by no event`] : [`${part} by `, Number(line)]));
    return ['Changed last: ', ...told.flatMap((one, place) => (place === 0 ? one : [', ', ...one])), '.'];
}

// Shows sentences as a list's items. Ones that are there stay, so that a button keeps the focus.
function fillSentences(list, sentences, goTo) {
    const texts = sentences.flat().map((part) => (typeof part === 'number' ? `line ${part}` : part));
    if (list.textContent === texts.join('')) return;
    list.hidden = sentences.length === 0;
    list.replaceChildren(...sentences.map((parts) => {
        const item = document.createElement('li');
        item.append(...parts.map((part) => (typeof part === 'number' ? lineButton(part, goTo) : part)));
        return item;
    }));
}

function lineButton(line, goTo) {
    const place = document.createElement('span');
    place.textContent = `line ${line}`;
    makeButton(place, `Line ${line} of the script`, () => goTo(line));
    return place;
}
