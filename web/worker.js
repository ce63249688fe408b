// The worker: it hands words, input and text between the page and the program's module. web/make puts `program` of
// scard.mjs before it.
"use strict";

const [PIECE, OFTEN] = [1 << 20, 100];
let [loaded, answer] = [null, null];

// Returns the octets of a text in base64, which gzip compressed.
async function unpacked(text) {
  const packed = Uint8Array.from(atob(text.trim()), (character) => character.charCodeAt(0));
  const stream = new Blob([packed]).stream().pipeThrough(new DecompressionStream("gzip"));
  return new Uint8Array(await new Response(stream).arrayBuffer());
}

// Returns the function that reads a text, or a file in pieces. It says now and then how far it is.
function reading(input) {
  const [isText, reader] = [typeof input === "string", new FileReaderSync()];
  let [piece, at, told] = [isText ? new TextEncoder().encode(input) : new Uint8Array(0), 0, performance.now()];
  return (room) => {
    try {
      if (!isText && !piece.length) piece = new Uint8Array(reader.readAsArrayBuffer(input.slice(at, at + PIECE)));
    } catch {
      return -1;
    }
    const count = Math.min(room.length, piece.length);
    room.set(piece.subarray(0, count));
    piece = piece.subarray(count);
    at += count;
    if (performance.now() - told > OFTEN) {
      told = performance.now();
      postMessage({ at });
    }
    return count;
  };
}

// Runs the program once. After an error the next run begins with a new instance.
async function ran({ words, input }) {
  const parts = [];
  const write = (part) => parts.push(part.slice()) && part.length;
  try {
    const octets = await loaded;
    answer ??= program(octets);
    const status = answer(new TextEncoder().encode(["scard", ...words].join("\0")), reading(input), write);
    return { status, parts };
  } catch (error) {
    answer = null;
    return { error: error.message };
  }
}

onmessage = async ({ data }) => {
  loaded ??= unpacked(data.module);
  const told = data.words ? await ran(data) : null;
  if (told) postMessage(told, told.parts?.map((it) => it.buffer) ?? []);
};
