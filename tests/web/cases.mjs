// Shared by the tests of the page: the lines of vectors/, and how each goes through the page's form.
import { readFileSync, readdirSync } from "node:fs";
import { gzipSync } from "node:zlib";

const vectors = new URL("../../vectors/", import.meta.url);

// Decodes a field of a vector, one character for each octet.
function plain(field) {
  if (field === "-") return "";
  const parts = { n: "\n", t: "\t", s: " ", e: "" };
  const octet = (digits) => String.fromCharCode(parseInt(digits, 16));
  return field.replace(/\\(x..|.)/g, (_, it) => (it[0] === "x" ? octet(it.slice(1)) : parts[it]));
}

// The characters of octets in UTF-8.
const characters = (octets) => Buffer.from(octets, "latin1").toString();

// Returns the lines of vectors/: the words, the octets of standard input, the status, and what the program prints.
export function* cases() {
  for (const file of readdirSync(vectors).sort()) {
    const lines = readFileSync(new URL(file, vectors), "latin1").split("\n");
    for (const [at, line] of lines.entries()) {
      if (line === "" || line.startsWith("#")) continue;
      const [head, input, status, said] = line.split("\t");
      const words = head === "-" ? [] : head.split(" ").map((it) => characters(plain(it)));
      const text = characters(plain(said));
      yield { at: `${file}:${at + 1}`, words, input: plain(input), status: Number(status), said: text };
    }
  }
}

// Puts words and input into the page's form, runs the program for what the form stands for, and returns by what, the
// status and the text. Words that a subcommand's fields can say go by these, all others by the line of words. An input
// that isn't what a person can type goes as a file. It calls only its first argument, so that a browser can run it too.
export async function through({ SUBCOMMANDS, fill, asked, quoted, run, fileOf }, { words, input }) {
  const octets = Uint8Array.from(input, (it) => it.charCodeAt(0));
  const decoder = new TextDecoder("utf-8", { ignoreBOM: true });
  const text = decoder.decode(octets);
  const isTyped = !/[\r\ufffd]/.test(text);
  const same = (values) => {
    fill({ ...values, ...(isTyped && { text }) }, isTyped ? null : fileOf(octets));
    return JSON.stringify(asked().words) === JSON.stringify(words);
  };
  const byFields = Object.entries(SUBCOMMANDS).some(([name, { words: items }]) => {
    const [values, left] = [{ do: name }, [...words]];
    for (const item of items) {
      const [option, field] = item.includes(" ") ? item.split(" ") : ["", item];
      if (option && left[0] !== option) continue;
      if (option) left.shift();
      if (field.endsWith("..")) values[field.slice(1, -2)] = left.splice(0, left.length).map(quoted).join(" ");
      else if (field.startsWith("$")) values[field.slice(1)] = left.shift() ?? "";
      else if (field !== left.shift()) return false;
    }
    for (const flag of left) values[flag.slice(2)] = "1";
    return name !== "words" && same(values);
  });
  if (!byFields && !same({ do: "words", line: words.map(quoted).join(" ") })) return ["neither", 0, ""];
  const now = asked();
  const told = await run(now.words, now.input);
  const said = told?.parts?.map((it) => decoder.decode(it, { stream: true })).join("") ?? String(told?.error);
  return [byFields ? "fields" : "line", told?.status, said + decoder.decode()];
}

// A module in base64 that ends with an error if there are no words after the program's name, and else with status 1.
export const TRAPS = "AGFzbQEAAAABDAJgAX4BfmACfn4BfwMDAgABBQMBAAEHJgMGbWVtb3J5AgAKc2NhcmRfcm9vbQAADHNjYXJkX2Fuc3dl"
  + "cgABChQCBABCCAsNACABQgVRBEAAC0EBCw==";

// Puts another module into the text of a page.
export function withModule(text, octets) {
  return text.replace(/id="module">[^<]*</, `id="module">${gzipSync(octets).toString("base64")}<`);
}
