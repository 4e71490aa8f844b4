// Logs: what a simulator or a debugger wrote of a hart. The module makes scripts of them.

// The script of a log by the first form that fits, or the first refusal that names a line of it, or null.
function importLog(unit, log) {
    const answers = Object.keys(LOG_FORMATS).map((format) => ({...unit.importLog(log, format), format}));
    return answers.find(({status}) => status === 0) ?? answers.find(({line}) => line > 0) ?? null;
}

// What a file holds as a script, and what is told of that: a file that doesn't begin as a script may be a log.
async function readScript(unit, file) {
    const bytes = new Uint8Array(await file.arrayBuffer());
    const text = decodeText(bytes);
    const [[word] = []] = significantLines(bytes);
    const log = word === 'pmp' ? null : importLog(unit, bytes);
    const name = file.name.replace(/\.pmp$/, '');
    if (log === null) return {name, text, told: ''};
    if (log.status === 0) {
        return {name, text: log.text, told: `This is the script of ${file.name}, as “pmp import ${log.format}” writes it.`};
    }
    const refused = `${sayRefusal(log, 'line')}. ${sayAdvice(log)}`;
    return {name, text, told: `${file.name} is no script, and as a log for “pmp import ${log.format}”: ${refused}`};
}
