// The script's text with its line numbers. Only the numbers that are seen are there, so a script may have many lines.
// Where the text is scrolled to is noted when it moves, since to ask for it in each draw lays the page out anew.

class Editor {
    constructor(area, gutter) {
        this.area = area;
        this.gutter = gutter;
        this.markOf = () => undefined;
        this.now = 0;
        this.lines = 1;
        this.height = parseFloat(getComputedStyle(area).lineHeight);
        this.measure();
        area.addEventListener('scroll', () => this.measure());
        new ResizeObserver(() => this.measure()).observe(area);
    }

    get text() {
        return this.area.value;
    }

    set text(text) {
        this.area.value = text;
        this.area.scrollTop = 0;
        this.count();
    }

    count() {
        this.lines = this.text.split('\n').length;
        this.gutter.style.setProperty('--digits', String(this.lines).length);
    }

    measure() {
        this.above = this.area.scrollTop;
        this.seen = this.area.clientHeight;
        this.draw();
    }

    // markOf: what a line has beside its number, {sign, kind} or undefined; now: the line that the moment is at, or 0
    mark(markOf, now) {
        this.markOf = markOf;
        this.now = now;
        this.draw();
    }

    draw() {
        const first = Math.floor(this.above / this.height) + 1;
        const last = Math.min(this.lines, first + Math.ceil(this.seen / this.height) + 1);
        const shown = [];
        for (let line = first; line <= last; line++) shown.push(this.drawLine(line));
        this.gutter.replaceChildren(...shown);
        this.gutter.style.setProperty('--above', `${(first - 1) * this.height - this.above}px`);
    }

    drawLine(line) {
        const item = document.createElement('div');
        const mark = this.markOf(line);
        const sign = document.createElement('b');
        if (mark) {
            item.className = mark.kind;
            sign.textContent = mark.sign;
        }
        item.classList.toggle('now', line === this.now);
        item.append(sign, String(line));
        return item;
    }

    // Scrolls to the line where it isn't seen.
    show(line) {
        const top = (line - 1) * this.height;
        if (top >= this.above && top + this.height <= this.above + this.seen) return;
        this.area.scrollTop = Math.max(0, top - this.seen / 2);
        this.measure();
    }

    // Selects the line, and shows it.
    goTo(line) {
        selectLine(this.area, line);
        this.area.scrollLeft = 0;
        this.show(line);
    }
}
