// The start: whether the browser can run the module, and the figures at the foot of the page.

const NO_MEMORY64 = 'This browser has no WebAssembly memory64, which the proved module needs. Chrome, Edge and other '
    + 'browsers by Chromium have it from version 133 on, Firefox from 134 on.';

// A module of nothing but one memory with addresses of 64 bits.
const HAS_MEMORY64 = Uint8Array.of(0, 97, 115, 109, 1, 0, 0, 0, 5, 3, 1, 4, 1);

function start() {
    const begun = performance.now();
    if (typeof WebAssembly !== 'object' || !WebAssembly.validate(HAS_MEMORY64)) {
        tell(NO_MEMORY64);
        document.querySelector('main').hidden = true;
        return null;
    }
    const bytes = Uint8Array.from(atob(data.module), (letter) => letter.charCodeAt(0));
    const page = new Page(new Unit(new WebAssembly.Module(bytes), data.limits, tell));
    page.opened = page.openAddress();
    page.opened.then(() => {
        page.took = performance.now() - begun;
        byId('figures').textContent = `The module has ${Math.ceil(bytes.length / 1024)} KiB, and the page was ready in `
            + `${Math.round(page.took)} ms.`;
    });
    return page;
}

const page = start();
