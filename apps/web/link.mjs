// A script in a link's fragment, deflated, in base64 for links; and the event that is looked at.

const NAME = "#script=", EVENT = "&event=";

async function through(bytes, stream) {
    const packed = new Blob([bytes]).stream().pipeThrough(stream);
    return new Uint8Array(await new Response(packed).arrayBuffer());
}

export async function fragment_of(script, event) {
    const bytes = await through(new TextEncoder().encode(script), new CompressionStream("deflate-raw"));
    let letters = "";
    for (const byte of bytes) {
        letters += String.fromCharCode(byte);
    }
    const base64 = btoa(letters).replaceAll("+", "-").replaceAll("/", "_").replaceAll("=", "");
    return NAME + base64 + EVENT + event;
}

// The script and the event of a fragment, null where it holds none. A fragment that can't be read is an error.
export async function script_of(fragment) {
    if (!fragment.startsWith(NAME)) {
        return null;
    }
    const [base64, event = "0"] = fragment.slice(NAME.length).split(EVENT);
    const letters = atob(base64.replaceAll("-", "+").replaceAll("_", "/"));
    const bytes = Uint8Array.from(letters, letter => letter.charCodeAt(0));
    const script = new TextDecoder().decode(await through(bytes, new DecompressionStream("deflate-raw")));
    return { script, event: Number(event) || 0 };
}
