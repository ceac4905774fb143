// A script in a link's fragment: deflated, in the letters of base64url.

export const MOST_SHARED = 65536; // characters of a script in a link

async function through(bytes, stream, most = Infinity) {
  const reader = new Blob([bytes]).stream().pipeThrough(stream).getReader(), parts = [];
  for (let size = 0, it = await reader.read(); !it.done; it = await reader.read()) {
    size += it.value.length;
    if (size > most) {
      reader.cancel().catch(() => {});
      throw new RangeError(`it holds more than ${most.toLocaleString("en")} bytes`);
    }
    parts.push(it.value);
  }
  return new Uint8Array(await new Blob(parts).arrayBuffer());
}

export async function pack(script) {
  if (script.length > MOST_SHARED) {
    throw new RangeError(`a link holds at most ${MOST_SHARED.toLocaleString("en")} characters`);
  }
  const bytes = await through(new TextEncoder().encode(script), new CompressionStream("deflate-raw"));
  const letters = btoa(Array.from(bytes, (it) => String.fromCharCode(it)).join(""));
  return `s=${letters.replaceAll("+", "-").replaceAll("/", "_").replace(/=+$/, "")}`;
}

// Base64 as bytes.
export const unbase64 = (letters) => Uint8Array.from(atob(letters), (it) => it.charCodeAt(0));

// Bytes that gzip packed.
export const gunzip = (bytes) => through(bytes, new DecompressionStream("gzip"));

// The script and the line of a fragment; null where it has none. It throws where it has a bad one.
export async function unpack(fragment) {
  if (!fragment.startsWith("s=")) return null;
  const [, letters, line] = /^s=([\w-]+)(?:&l=([0-9]{1,6}))?$/.exec(fragment) ?? [];
  if (!letters) throw new RangeError("it has characters that no link has");
  const bytes = unbase64(letters.replaceAll("-", "+").replaceAll("_", "/"));
  const script = await through(bytes, new DecompressionStream("deflate-raw"), MOST_SHARED);
  return { script: new TextDecoder().decode(script), line: line ? Number(line) - 1 : undefined };
}
