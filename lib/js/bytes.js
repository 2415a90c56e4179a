// The bytes of texts.
const ENCODER = new TextEncoder(), DECODER = new TextDecoder();

/** The bytes of a text. A letter beyond ASCII becomes bytes that no text has. */
export function bytesOf(text) {
    if (typeof text === "string") return ENCODER.encode(text);
    if (ArrayBuffer.isView(text)) return new Uint8Array(text.buffer, text.byteOffset, text.byteLength);
    if (text instanceof ArrayBuffer) return new Uint8Array(text);
    throw new TypeError("a text is a string, a typed array or an ArrayBuffer: write makes one of an instance");
}

export function inFormOf(came, bytes) {
    return typeof came === "string" ? DECODER.decode(bytes) : bytes;
}
