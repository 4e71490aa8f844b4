// The part "Findings": what in the script deserves a look, and what to do about it, as `pmp lint` writes it.

const MOST_FINDINGS = 500;
const SLOW = 100; // milliseconds that finding may take at each key; where it took more the page waits for a pause

class Findings {
    // goTo: a function that shows a line of the script
    constructor(unit, names, goTo) {
        this.unit = unit;
        this.names = names;
        this.goTo = goTo;
        this.took = 0;
        this.boot = null;
        this.rows = [];
        this.finished = Promise.resolve();
    }

    // Finds what the boot has, or nothing where there is none without a fault. What is known of it is shown anew.
    ask(boot) {
        if (boot !== null && boot === this.boot) {
            this.draw();
            return;
        }
        clearTimeout(this.waiting);
        this.finished = Promise.resolve();
        this.boot = boot;
        if (boot === null) this.show([], '');
        else if (this.took <= SLOW) this.find();
        else this.findLater();
    }

    findLater() {
        this.show([], 'They follow when you pause.');
        this.finished = new Promise((go) => {
            this.waiting = setTimeout(() => go(this.find()), PAUSE);
        });
    }

    find() {
        const begun = performance.now();
        const answer = this.unit.lint(this.boot.script);
        this.took = performance.now() - begun;
        if (answer.status !== 0) this.show([], `${sayRefusal(answer)}. ${sayAdvice(answer)}`);
        else this.show(answer.rows);
    }

    show(rows, said = sayFindings(rows.length)) {
        this.rows = rows;
        byId('findings-count').textContent = said;
        byId('findings-region').hidden = rows.length === 0;
        const texts = [...new Set(rows.map(({name}) => name))].map((name) => [name, data.findings[name]]);
        fillTexts(byId('remedies'), texts);
        this.draw();
    }

    draw() {
        fillTable(byId('findings'), this.names.addTo(this.rows.slice(0, MOST_FINDINGS)), (tr, row, cells) => {
            const line = Number(row.line);
            if (line > 0) makeButton(cells.line, `Line ${line} of the script`, () => this.goTo(line));
        });
    }
}

function sayFindings(count) {
    if (count === 0) return 'No findings.';
    return counted(count, 'finding') + (count > MOST_FINDINGS ? `; the first ${MOST_FINDINGS}:` : ':');
}
