// The state in the address, behind its #: boot=NAME or script=TEXT, by=write where single writes are asked of, at=N,
// access=MODE,KIND,START,LENGTH; plan=NAME or ranges=TEXT, and mseccfg=N where its script is to set bits; policy=NAME
// or rows=TEXT, and pace=write where a policy asks after each write; old=NAME or before=TEXT, and done=N,M where not
// all publications of the old and the new script are; names=TEXT where addresses have names. TEXT is a text, squeezed
// and in base64 as addresses take it.

const LONGEST_ADDRESS = 32768;

async function through(bytes, stream) {
    return new Uint8Array(await new Response(new Blob([bytes]).stream().pipeThrough(stream)).arrayBuffer());
}

async function squeezeText(text) {
    const bytes = await through(encodeText(text), new CompressionStream('deflate-raw'));
    const letters = Array.from(bytes, (byte) => String.fromCharCode(byte)).join('');
    return btoa(letters).replaceAll('+', '-').replaceAll('/', '_').replaceAll('=', '');
}

async function unsqueezeText(text) {
    const letters = atob(text.replaceAll('-', '+').replaceAll('_', '/'));
    const bytes = Uint8Array.from(letters, (letter) => letter.charCodeAt(0));
    return decodeText(await through(bytes, new DecompressionStream('deflate-raw')));
}

// The state that an address has, or null where it has none.
async function readAddress(hash) {
    const fields = new URLSearchParams(hash.slice(1));
    if (!fields.has('boot') && !fields.has('script')) return null;
    const state = {boot: fields.get('boot'), by: fields.get('by') === 'write' ? 'write' : 'publication'};
    if (fields.has('script')) state.text = await unsqueezeText(fields.get('script'));
    if (/^[0-9]{1,9}$/.test(fields.get('at') ?? '')) state.at = Number(fields.get('at'));
    const access = (fields.get('access') ?? '').split(',');
    if (access.length === 4) state.access = access;
    const pace = fields.get('pace') === 'write' ? 'write' : 'publication';
    if (fields.has('names')) state.names = await unsqueezeText(fields.get('names'));
    state.plan = {...await readText(fields, 'plan', 'ranges'), mseccfg: Number(fields.get('mseccfg') ?? 0)};
    state.policy = {...await readText(fields, 'policy', 'rows'), by: pace};
    const [oldAfter, newAfter] = [...(fields.get('done') ?? '').split(','), ''];
    state.old = {...await readText(fields, 'old', 'before'), afters: [oldAfter, newAfter]};
    return state;
}

// A text by its name, or as it is, or none.
async function readText(fields, name, text) {
    if (fields.has(name)) return {name: fields.get(name)};
    return fields.has(text) ? {text: await unsqueezeText(fields.get(text))} : {};
}

// A text as fields of an address have it: an example by its name, another one squeezed, an empty one not at all.
async function textFields({name, text}, nameField, textField) {
    if (name) return [`${nameField}=${encodeURIComponent(name)}`];
    return text ? [`${textField}=${await squeezeText(text)}`] : [];
}

// The state as it stands behind the #, or nothing where its texts are too long.
async function addressOf(state) {
    const fields = [];
    if (state.boot) {
        fields.push(`boot=${encodeURIComponent(state.boot)}`);
    } else {
        fields.push(`script=${await squeezeText(state.text)}`);
    }
    if (state.by === 'write') fields.push('by=write');
    if (Number.isFinite(state.at)) fields.push(`at=${state.at}`);
    fields.push(`access=${state.access.map(encodeURIComponent).join(',')}`);
    if (state.names !== '') fields.push(`names=${await squeezeText(state.names)}`);
    fields.push(...await textFields(state.plan, 'plan', 'ranges'));
    if (state.plan.mseccfg !== 0) fields.push(`mseccfg=${state.plan.mseccfg}`);
    fields.push(...await textFields(state.policy, 'policy', 'rows'));
    if (state.policy.by === 'write') fields.push('pace=write');
    fields.push(...await textFields(state.old, 'old', 'before'));
    if (state.old.afters.join('') !== '') fields.push(`done=${state.old.afters.map(encodeURIComponent).join(',')}`);
    const address = `#${fields.join('&')}`;
    return address.length > LONGEST_ADDRESS ? '' : address;
}
