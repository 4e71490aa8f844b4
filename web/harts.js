// The list of harts: scripts that were opened together, one for each hart, each compared with the first one.

class Harts {
    // show: a function that shows a hart's script, and that of the first hart as the old one
    constructor(unit, show) {
        this.unit = unit;
        this.show = show;
        this.scripts = [];
    }

    // The scripts, each {name, text}. Fewer than two have no list.
    put(scripts) {
        this.scripts = scripts.toSorted((one, other) => compareHarts(one.name, other.name));
        byId('harts-part').hidden = this.scripts.length < 2;
        const rows = this.scripts.map(({name, text}, place) =>
            ({hart: name, compared: place === 0 ? '' : this.compare(text)}));
        fillTable(byId('harts'), rows, (tr, {hart}, cells) => {
            const place = tr.sectionRowIndex;
            makeButton(cells.hart, `Show ${hart}`, () => this.open(place));
        });
    }

    open(place) {
        const [first, {text}] = [this.scripts[0], this.scripts[place]];
        this.show(text, place === 0 ? '' : first.text);
    }

    // How a script differs from the first hart's, after all publications of both.
    compare(text) {
        const scripts = [this.scripts[0].text, text].map(encodeText);
        const [first, own] = scripts.map((script) => this.unit.publications(script));
        if (own.status !== 0) return sayRefusal(own, 'Line');
        if (first.status !== 0) return 'not compared: the first one is refused';
        const answer = this.unit.diff(scripts[0], BigInt(first.text), scripts[1], BigInt(own.text));
        if (answer.status !== 0) return saySideFault(answer);
        const ranges = answer.rows.length;
        return ranges === 0 ? 'the same rights' : `${counted(ranges, 'range')} with other rights`;
    }
}

// As the program orders harts: numbers in a name by their values, and all else by its letters.
function compareHarts(one, other) {
    const [ones, others] = [one, other].map((name) => name.match(/\d+|\D/g) ?? []);
    for (const [place, part] of ones.entries()) {
        const beside = others[place] ?? '';
        if (part === beside) continue;
        const [left, right] = [part, beside].map((text) => (/\d/.test(text) ? BigInt(text) : null));
        if (left !== null && right !== null && left !== right) return left < right ? -1 : 1;
        return part < beside ? -1 : 1;
    }
    return ones.length - others.length;
}
