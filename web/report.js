// The report: what the page shows at its moment, as Markdown, to paste into a review or an issue.

function reportOf(page) {
    const {by, at} = page.moment;
    const parts = [
        [byId('decisions').caption.textContent, 'decisions', rowsSeen('decisions')],
        ['Memory map', 'runs', page.runs().map((row) => Object.values(row))],
        ['Plan', 'plan-rows', rowsSeen('plan-rows')],
        ['Entries', 'entries', rowsSeen('entries')],
        ['Policy', 'verdicts', rowsSeen('verdicts')],
        ['Difference', 'differences', rowsSeen('differences')],
        ['Findings', 'findings', rowsSeen('findings'), 'remedies'],
        ['Writes that aren’t stored as written', 'writes', rowsSeen('writes')],
    ].filter(([, , lines]) => lines.length > 0);
    const tables = parts.map(([title, id, lines, texts]) => `\n## ${title}\n\n${markdownTable(byId(id), lines)}`
        + (texts ? markdownTexts(byId(texts)) : ''));
    const why = [...byId('why').children].map((sentence) => `- ${markdownText(sentence.textContent)}\n`).join('');
    const access = ['mode', 'kind', 'start', 'length'].map((id) => byId(id).value).join(' ');
    return `# ${markdownText(page.name || 'A script')} after ${by} ${at}\n\n`
        + `${markdownText(byId('moment').textContent)}\n\n`
        + `${markdownText(`${access}: ${byId('access-now').textContent}`)}\n${why && `\n${why}`}${tables.join('')}`;
}

function rowsSeen(id) {
    const rows = [...byId(id).tBodies[0].rows].filter((row) => row.checkVisibility());
    return rows.map((row) => [...row.cells].map((cell) => cell.textContent));
}

function markdownTable(table, lines) {
    const names = columnsOf(table);
    const rows = [names.map(markdownText), names.map(() => '---'), ...lines.map((fields) => fields.map(markdownText))];
    return rows.map((fields) => `| ${fields.join(' | ')} |\n`).join('');
}

// A list of terms, each a paragraph of its own.
function markdownTexts(list) {
    const texts = [...list.children].map((one) => markdownText(one.textContent));
    return texts.map((text, place) => (place % 2 === 0 ? `\n${text}: ` : `${text}\n`)).join('');
}

// A text whose signs Markdown doesn't read.
function markdownText(text) {
    return text.replace(/[\\`*_[\]<>|#&~]/g, '\\$&');
}
