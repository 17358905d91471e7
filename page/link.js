// A trace in an address: deflated, in base64url.

export const decodeBase64 = encoded => Uint8Array.from(atob(encoded), character => character.charCodeAt(0));

// Ends with an error where there come more bytes than `most`.
export async function inflate(bytes, kind, most) {
  const reader = new Blob([bytes]).stream().pipeThrough(new DecompressionStream(kind)).getReader(), pieces = [];
  let size = 0;
  for (;;) {
    const { done, value } = await reader.read();
    if (done) break;
    size += value.length;
    if (size > most) {
      await reader.cancel();
      throw new Error(`more than ${most} bytes`);
    }
    pieces.push(value);
  }
  return new Uint8Array(await new Blob(pieces).arrayBuffer());
}

export const LONGEST_TRACE = 4194304; // bytes
export const LONGEST_LOG = 16777216;
const LONGEST_LINK = 30000; // longer ones are cut by some browsers and by most mail

export async function pack(text) {
  const stream = new Blob([text]).stream().pipeThrough(new CompressionStream('deflate-raw'));
  const bytes = new Uint8Array(await new Response(stream).arrayBuffer());
  let binary = '';
  for (let at = 0; at < bytes.length; at += 8192) binary += String.fromCharCode(...bytes.subarray(at, at + 8192));
  return btoa(binary).replace(/\+/g, '-').replace(/\//g, '_').replace(/=+$/, '');
}

// The text of a link, or null for what is none.
export async function unpack(packed) {
  try {
    return new TextDecoder().decode(await inflate(decodeBase64(packed.replace(/-/g, '+').replace(/_/g, '/')), 'deflate-raw', LONGEST_TRACE));
  } catch {
    return null;
  }
}

export const isTooLong = packed => packed.length > LONGEST_LINK;
