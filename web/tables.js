// Rows of an answer as those of a table. A row's values are the texts of its cells, in the order of its keys.

function addCell(tr, column, head) {
    const cell = document.createElement(column === 0 ? 'th' : 'td');
    if (column === 0) cell.scope = 'row';
    cell.dataset.name = head;
    tr.append(cell);
    return cell;
}

// The names of the columns. One that isn't shown has a hidden head, and no cells.
function columnsOf(table) {
    return [...table.tHead.rows[0].cells].filter((head) => !head.hidden).map((head) => head.textContent);
}

// Rows and cells that are there stay, and only texts that differ are set: a move of the slider changes few of them. On
// a narrow screen a cell shows the name of its column. dress: a function that takes the table's row, the answer's, and
// the cells by the keys of that
function fillTable(table, rows, dress = () => {}) {
    const body = table.tBodies[0];
    const heads = columnsOf(table);
    while (body.rows.length > rows.length) body.deleteRow(-1);
    rows.forEach((row, place) => {
        const tr = body.rows[place] ?? body.insertRow();
        const cells = {};
        Object.entries(row).forEach(([name, text], column) => {
            const cell = tr.cells[column] ?? addCell(tr, column, heads[column]);
            if (cell.textContent !== text) cell.textContent = text;
            cells[name] = cell;
        });
        while (tr.cells.length > Object.keys(row).length) tr.deleteCell(-1);
        dress(tr, row, cells);
    });
}

// Pairs of a word and its text, as a list of terms.
function fillTexts(list, texts) {
    list.replaceChildren(...texts.flatMap(([word, text]) => {
        const [term, description] = [document.createElement('dt'), document.createElement('dd')];
        [term.textContent, description.textContent] = [word, text];
        return [term, description];
    }));
}

// A cell's text as a button.
function makeButton(cell, label, act) {
    const button = document.createElement('button');
    button.type = 'button';
    button.textContent = cell.textContent;
    button.setAttribute('aria-label', label);
    button.addEventListener('click', act);
    cell.replaceChildren(button);
}

// counted(1, "run"): "1 run"; counted(2, "run"): "2 runs"
function counted(number, word) {
    return `${number.toLocaleString('en')} ${word}${number === 1 ? '' : 's'}`;
}
