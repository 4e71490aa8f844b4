// What checks/page asks of the page, where it runs beside the page's own script.

const asList = ({status, line, text}) => [status, line, text];

// What the first row of `pmp why` has of the row of `pmp check`, all but its number, in place of the text.
function decisionOf({status, line, reason}) {
    if (reason === undefined) return [status, line, ''];
    const {answer, fault, cause, entry} = reason;
    return [status, line, [answer, fault, cause, entry].join()];
}

function answersOf(text, moments, accesses) {
    const script = encodeText(text);
    const unit = page.unit;
    const at = (after) => {
        const views = ['map', 'picture', 'entries', 'registers'].map((it) => [it, asList(unit[it](script, after))]);
        const decisions = accesses.map(([mode, kind, start, length]) =>
            decisionOf(unit.why(script, after, mode, kind, BigInt(start), BigInt(length))));
        return {...Object.fromEntries(views), decisions};
    };
    return {
        publications: asList(unit.publications(script)),
        writes: asList(unit.writes(script)),
        moments: moments.map(at),
    };
}

// Why each access is decided so at each moment.
function whyOf(text, moments, accesses) {
    const script = encodeText(text);
    return moments.map((after) => accesses.map(([mode, kind, start, length]) =>
        asList(page.unit.why(script, after, mode, kind, BigInt(start), BigInt(length)))));
}

// The columns of each kind of rows, and of the first number of none.
function columnsSaid() {
    const numbers = {...ROW_KINDS, none: Object.keys(ROW_KINDS).length};
    const said = Object.entries(numbers).map(([kind, number]) => [kind, page.unit.call('columns', [], [number])]);
    return Object.fromEntries(said.map(([kind, answer]) => [kind, asList(answer)]));
}

const importOf = (log, format) => asList(page.unit.importLog(encodeText(log), format));

// A script as one types it.
function type(text) {
    byId('script').value = text;
    page.edited();
}

const tellInput = (element) => element.dispatchEvent(new Event('input', {bubbles: true}));
const selected = () => byId('script').value.slice(byId('script').selectionStart, byId('script').selectionEnd);
const isSeen = (element) => element.checkVisibility();

function faultShown(text) {
    byId('script').value = text;
    page.boot = null;
    page.rename('');
    page.editor.count();
    page.read();
    byId('script').setSelectionRange(0, 0);
    byId('fault-go').click();
    const seen = isSeen(byId('fault'));
    return {
        line: seen ? byId('fault-line').textContent : null,
        advice: byId('fault-advice').textContent,
        answers: isSeen(byId('answers')),
        selected: selected(),
    };
}

function choose(words) {
    ['mode', 'kind', 'start', 'length'].forEach((it, place) => { byId(it).value = words[place]; });
    tellInput(byId('start'));
}

function accessShown(text, words) {
    type(text);
    choose(words);
    return byId('access-now').textContent;
}

function openBoot(name) {
    byId('boot').value = name;
    byId('boot').dispatchEvent(new Event('change'));
    for (const it of ['runs-part', 'registers-part']) byId(it).open = true;
    byId('all-entries').checked = true;
    byId('all-entries').dispatchEvent(new Event('change'));
    return page.editor.text;
}

function slide(by, at) {
    byId(by).value = at;
    tellInput(byId(by));
}

// What is said of a moment, and whether its answers are shown.
function momentShown(by, at) {
    slide(by, at);
    return `${byId('moment').textContent} ${isSeen(byId('shown')) ? 'shown' : 'hidden'}`;
}

const rowsOf = (id) => [...byId(id).tBodies[0].rows].filter(isSeen)
    .map((row) => [...row.cells].map((cell) => cell.textContent));

// The same, each row with its cells by the heads of the columns.
function rowsByHead(id) {
    const heads = columnsOf(byId(id));
    return rowsOf(id).map((cells) => {
        if (cells.length !== heads.length) throw new Error(`${id}: ${cells.length} cells below ${heads.length} heads`);
        return Object.fromEntries(heads.map((head, place) => [head, cells[place]]));
    });
}

const linesShown = (id, parting) => rowsOf(id).map((cells) => `${cells.join(parting)}\n`).join('');

function shownAt(by, at) {
    slide(by, at);
    page.showRuns();
    page.showRegisters();
    return {
        map: linesShown('runs', ','),
        picture: page.picture.text,
        drawn: [...page.picture.root.querySelectorAll('text')].map((it) => it.textContent),
        entries: linesShown('entries', ','),
        registers: linesShown('registers', ' '),
        writes: rowsOf('writes').map((cells) => cells.join(',')),
        sliders: [byId('publication').value, byId('write').value],
    };
}

// The answer after each moment, from the groups of the table.
function decisionsShown(by, words) {
    slide(by, 0);
    choose(words);
    return rowsByHead('decisions').flatMap(({After, ...decision}) => {
        const [from, to] = After.split(' to ').map(Number);
        return new Array((to ?? from) - from + 1).fill(Object.values(decision).join());
    });
}

// What is said of why an access is decided so, its answers, which of them has the moment, and the lines that it leads
// to, where the slider moves after the access is chosen.
function whyShown(by, at, words) {
    choose(words);
    slide(by, at);
    return {
        said: isSeen(byId('why')) ? [...byId('why').children].map((it) => it.textContent) : [],
        rows: rowsOf('decisions'),
        now: [...byId('decisions').tBodies[0].rows].findIndex((row) => row.ariaCurrent === 'true'),
        lines: linesGoneTo('why'),
    };
}

function linesGoneTo(id) {
    return [...byId(id).querySelectorAll('button')].map((button) => {
        button.click();
        return selected();
    });
}

const reasonsShown = () => [...byId('reasons').querySelectorAll('dt')].map((it) => it.textContent);
const noticeShown = () => (isSeen(byId('notice')) ? byId('notice').textContent : '');

function stateShown() {
    return {
        address: location.hash,
        text: page.editor.text,
        boot: byId('boot').value,
        moment: page.moment,
        access: page.access.state,
        picture: page.picture.text,
        now: byId('access-now').textContent,
    };
}

async function goTo(name, text, by, at, access) {
    if (text === null) openBoot(name);
    else type(text);
    choose(access);
    slide(by, at);
    await page.noteAddress();
    return stateShown();
}

// Policies and differences.

// A demand that the module refuses or not, by numbers.
function verdictOf(text, change) {
    const row = {number: 1, from: 0, to: 2, first: 0, last: 9, modes: 3, kind: 3, demand: 0, pace: 0, ...change};
    for (const name of ['number', 'from', 'to', 'first', 'last']) row[name] = BigInt(row[name]);
    return asList(page.unit.verdict(encodeText(text), row));
}

// What the page notes beside verdicts, in the program's words.
function noteOf(count) {
    if (count === 'The policy has no rows, so it holds.') return 'the policy has no rows';
    const [, row] = count.split(' Row ');
    return row ? `policy row ${row.slice(0, -1)}` : '';
}

async function verdictsShown(policy, by) {
    byId('each-write').checked = by === 'write';
    byId('policy').value = policy;
    tellInput(byId('policy'));
    await page.demands.finished;
    const seen = isSeen(byId('policy-fault'));
    const rows = rowsByHead('verdicts');
    const answers = page.demands.fault ? [] : page.demands.verdicts;
    return {
        rows: rows.map(({Demand, Names, ...verdict}) => Object.values(verdict).join()),
        named: rows.map(({Demand, ...verdict}) => Object.values(verdict)),
        said: rows.map((row) => row.Demand),
        answers: answers.map(({demand, ...verdict}) => Object.values(verdict).join()),
        fault: seen ? byId('policy-fault-line').textContent : '',
        note: noteOf(byId('verdicts-count').textContent),
        wanted: seen ? byId('policy-fault-wanted').textContent : '',
    };
}

// The moment that each of the first breaches leads to.
function breachesGoneTo(most) {
    const rows = [...byId('verdicts').tBodies[0].rows].filter(isSeen).slice(0, most);
    return rows.flatMap((row) => [...row.querySelectorAll('button')]).map((button) => {
        button.click();
        return {...page.moment};
    });
}

function diffOf(old, oldAfter, text, newAfter) {
    const answer = page.unit.diff(encodeText(old), BigInt(oldAfter), encodeText(text), BigInt(newAfter));
    return [...asList(answer), answer.side];
}

function differencesShown(old, afters) {
    ['old-after', 'new-after'].forEach((id, place) => { byId(id).value = afters[place]; });
    byId('old-script').value = old;
    tellInput(byId('old-script'));
    const {status, text} = page.differences.answer;
    return {
        rows: linesShown('differences', ','),
        answer: [status, text],
        fault: isSeen(byId('old-fault')) ? byId('old-fault-line').textContent : '',
    };
}

async function findingsShown() {
    await page.demands.finished;
    return {
        address: location.hash,
        policy: page.demands.state,
        policyText: byId('policy').value,
        verdicts: rowsOf('verdicts'),
        old: page.differences.state,
        oldText: byId('old-script').value,
        differences: rowsOf('differences'),
    };
}

async function findingsSet(policyName, oldName, policy, old, by, afters) {
    page.demands.put({...(policyName ? {name: policyName} : {text: `${policy}\n`}), by});
    page.differences.put({...(oldName ? {name: oldName} : {text: `${old}\n`}), afters});
    await page.noteAddress();
    return findingsShown();
}

// The row that the fault of a plan or of names leads to.
function rowGoneTo(id) {
    if (!isSeen(byId(`${id}-go`))) return '';
    byId(`${id}-go`).click();
    const {value, selectionStart, selectionEnd} = byId(id);
    return value.slice(selectionStart, selectionEnd);
}

// Findings.

const lintOf = (text) => asList(page.unit.lint(encodeText(text)));

async function lintShown() {
    await page.findings.finished;
    return {
        rows: rowsOf('findings').map((cells) => cells.join(',')),
        count: byId('findings-count').textContent,
        texts: [...byId('remedies').children].map((it) => it.textContent),
        lines: linesGoneTo('findings'),
    };
}

// Plans.

const meetsOf = (text, after, plan) => asList(page.unit.meets(encodeText(text), after, encodeText(plan)));
const plansOf = (text, plan) => [0, 1, 2, 3, 4, 5, 6, 7].map((bits) =>
    asList(page.unit.plan(encodeText(text), encodeText(plan), bits)));

function givePlan(text) {
    byId('plan').value = text;
    tellInput(byId('plan'));
    return planShown();
}

function planShown() {
    const seen = isSeen(byId('plan-fault'));
    return {
        rows: rowsOf('plan-rows'),
        count: byId('plan-count').textContent,
        line: seen ? byId('plan-fault-line').textContent : '',
        advice: seen ? byId('plan-fault-advice').textContent : '',
        makes: !byId('plan-make').disabled,
    };
}

// Where the slider has been moved, what is shown of the plan.
function planShownAt(by, at) {
    slide(by, at);
    return planShown();
}

// The script that is opened for the plan with these bits, or why there is none.
function planMade(bits) {
    for (const [id, bit] of Object.entries(MSECCFG_BITS)) {
        byId(id).checked = (bits & bit) !== 0;
        byId(id).dispatchEvent(new Event('change', {bubbles: true}));
    }
    byId('plan-make').click();
    return [page.editor.text, noticeShown(), byId('plan-unmade').textContent];
}

// Names of addresses.

function giveNames(text) {
    byId('names').value = text;
    tellInput(byId('names'));
    const seen = isSeen(byId('names-fault'));
    return {
        line: seen ? byId('names-fault-line').textContent : '',
        advice: seen ? byId('names-fault-advice').textContent : '',
        heads: [...document.querySelectorAll('th')].filter((it) => it.textContent === 'Names' && !it.hidden).length,
    };
}

// Whether the rows of each table with ranges have names, and what is said of the access.
async function namesShown() {
    await page.demands.finished;
    const ids = ['runs', 'entries', 'verdicts', 'differences', 'findings'];
    const haveNames = ids.map((id) => [...new Set(rowsByHead(id).map((row) => 'Names' in row))]);
    return [haveNames, byId('access-now').textContent];
}

// What the picture has of names and of all else, and whether the names end within their bands.
function namesDrawn() {
    const drawn = [...page.picture.root.querySelectorAll('text')];
    const names = drawn.filter((it) => it.matches('.names'));
    const endOf = (it) => it.getBoundingClientRect().right;
    return {
        names: names.map((it) => it.textContent),
        rest: drawn.filter((it) => !it.matches('.names')).map((it) => it.textContent),
        inside: names.slice(1).every((it) => endOf(it) <= endOf(it.parentElement.querySelector('rect'))),
    };
}

function accessDecision(words) {
    choose(words);
    return decisionOf(page.access.answerAt(page.moment.at));
}

// The page for people.

const parts = (color) => color.match(/[\d.]+/g).map(Number);

function lightness(color) {
    const [red, green, blue] = parts(color).map((it) => it / 255)
        .map((it) => (it <= 0.04045 ? it / 12.92 : ((it + 0.055) / 1.055) ** 2.4));
    return 0.2126 * red + 0.7152 * green + 0.0722 * blue;
}

function contrast(one, other) {
    const [dark, light] = [lightness(one), lightness(other)].sort((a, b) => a - b);
    return (light + 0.05) / (dark + 0.05);
}

function groundOf(element) {
    for (let it = element; it; it = it.parentElement) {
        const ground = getComputedStyle(it).backgroundColor;
        if ((parts(ground)[3] ?? 1) > 0) return ground;
    }
    return 'rgb(255, 255, 255)';
}

// Each text that is seen, with the contrast that it has with its ground.
function contrasts() {
    const found = [];
    const walk = document.createTreeWalker(document.body, NodeFilter.SHOW_TEXT);
    while (walk.nextNode()) {
        const element = walk.currentNode.parentElement;
        const text = walk.currentNode.data.trim();
        if (text === '' || !isSeen(element) || element.closest('script, option, .skip')) continue;
        found.push([text.slice(0, 30), contrast(getComputedStyle(element).color, groundOf(element))]);
    }
    for (const text of page.picture.root.querySelectorAll('text')) {
        const ground = text.parentElement.querySelector('rect') ?? page.picture.root.querySelector('rect');
        found.push([text.textContent, contrast(getComputedStyle(text).fill, getComputedStyle(ground).fill)]);
    }
    return found;
}

// What has the focus, and whether one sees that.
function focusShown() {
    const element = document.activeElement;
    const shown = element.type === 'file' ? element.labels[0] : element;
    const ring = element.closest('.editor') ?? shown;
    const place = ring.getBoundingClientRect();
    return {
        what: element === document.body ? '' : element.id || `${element.tagName} ${element.textContent.slice(0, 20)}`
            + (element.ariaLabel ?? ''),
        ringed: getComputedStyle(ring).outlineStyle !== 'none',
        seen: place.width > 1 && place.height > 1,
    };
}
