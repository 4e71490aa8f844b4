// Texts as bytes, their names, their lines and files. What isn't UTF-8 is shown as U+FFFD; a byte-order mark stays, so
// that it is refused.

const encoder = new TextEncoder();
const decoder = new TextDecoder('utf-8', {ignoreBOM: true});
const encodeText = (text) => encoder.encode(text);
const decodeText = (bytes) => decoder.decode(bytes);

// The names of texts as a list's choices, and behind them one for a text of one's own.
function offerNames(list, texts) {
    for (const name of Object.keys(texts)) list.add(new Option(name, name));
    list.add(new Option('your own', ''));
}

// Selects a line of an area's text.
function selectLine(area, line) {
    const lines = area.value.split('\n');
    const before = lines.slice(0, line - 1).reduce((sum, one) => sum + one.length + 1, 0);
    area.focus();
    area.setSelectionRange(before, before + (lines[line - 1] ?? '').length);
}

// Opens the file that is chosen by the input, or dropped on its part of the page.
function takeFile(input, part, open) {
    input.addEventListener('change', () => {
        if (input.files.length > 0) open(input.files[0]);
        input.value = '';
    });
    part.addEventListener('drop', (event) => {
        if (event.dataTransfer.files.length === 0) return;
        event.preventDefault();
        event.stopPropagation();
        open(event.dataTransfer.files[0]);
    });
}

// What is told at the head of the page.
function tell(text) {
    byId('notice').textContent = text;
    byId('notice').hidden = text === '';
}

function tellTooLong(file) {
    const fault = {status: TOO_LONG, line: 0};
    tell(`${file.name}: ${sayRefusal(fault)}. ${sayAdvice(fault)}`);
}

// What a text of the page doesn't have as its file has it.
function tellOfText(text) {
    if (/\r(?!\n)/.test(text)) tell('The editor has no lone CR: each is a line’s end here.');
    if (text.includes('\ufffd')) tell('Bytes that are no UTF-8 are U+FFFD here.');
}
