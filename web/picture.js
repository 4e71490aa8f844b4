// The picture, as the unit draws it, with a column of names where these are given. It stands in a tree of its own,
// since the selectors of its style are plain ones; the style is taken out before it is parsed, and becomes a sheet, since
// the page's policy allows no style beside its own. A sheet for dark and for narrow screens follows it.

const PICTURE_WIDTH = 960;
const BAND_WIDTH = 928;
const NAMES_AT = 930;
const LETTER = 8; // at least the width of one
const MOST_LETTERS = 40;

// A picture with one column more: the names of each band's row. A long text is cut; the runs have it whole.
function withNames(picture, rows) {
    const texts = ['Names', ...rows.map((row) => cutText(row.names))];
    const more = LETTER * Math.max(...texts.map((text) => text.length)) + 10;
    const cell = (text) => `<text class='names' x='${NAMES_AT}'>${escapeText(text)}</text>`;
    let band = 0;
    return picture
        .replace(`viewBox='0 0 ${PICTURE_WIDTH} `, `class='named' viewBox='0 0 ${PICTURE_WIDTH + more} `)
        .replaceAll(` width='${PICTURE_WIDTH}'`, ` width='${PICTURE_WIDTH + more}'`)
        .replace('>Lock</text>', (head) => head + cell(texts[0]))
        .replace(new RegExp(` width='${BAND_WIDTH}'(.*)</g>$`, 'gm'), (_, cells) => {
            band += 1;
            return ` width='${BAND_WIDTH + more}'${cells}${cell(texts[band])}</g>`;
        });
}

function cutText(text) {
    return text.length > MOST_LETTERS ? `${text.slice(0, MOST_LETTERS - 1)}…` : text;
}

// A text as it stands in a document of XML.
function escapeText(text) {
    return text.replace(/[&<>]/g, (sign) => `&#${sign.charCodeAt(0)};`);
}

class Picture {
    constructor(host, darkStyle) {
        this.root = host.attachShadow({mode: 'open'});
        this.sheets = new Map();
        this.dark = new CSSStyleSheet();
        this.dark.replaceSync(darkStyle);
        this.text = '';
    }

    show(text) {
        if (text === this.text) return;
        this.text = text;
        const [, before, style, behind] = text.match(/^([^]*)<style>([^]*)<\/style>([^]*)$/);
        const drawn = new DOMParser().parseFromString(before + behind, 'image/svg+xml').documentElement;
        this.root.host.style.setProperty('--wider', drawn.getAttribute('width') / PICTURE_WIDTH);
        this.root.adoptedStyleSheets = [this.sheetOf(style), this.dark];
        this.root.replaceChildren(document.importNode(drawn, true));
    }

    sheetOf(style) {
        if (!this.sheets.has(style)) {
            const sheet = new CSSStyleSheet();
            sheet.replaceSync(style);
            this.sheets.set(style, sheet);
        }
        return this.sheets.get(style);
    }

    save(name) {
        const link = document.createElement('a');
        link.href = URL.createObjectURL(new Blob([this.text], {type: 'image/svg+xml'}));
        link.download = name;
        link.click();
        setTimeout(() => URL.revokeObjectURL(link.href), 10000);
    }
}
