// Tests the pictures that the page makes of what vectors/ have: which octets each line of a value lights up, the tree
// of data objects, and the marks at the blocks of a trace. What is right is worked out from the octets themselves.
import { cases } from "./cases.mjs";

const KINDS = ["atr", "block", "chain", "command", "response", "tlv", "dol"];
const WORDS = /^\s*(\S+) ?(\S*) ?(\S*)/;

// The octets of a word of the program.
const octetsOf = (word) => (["none", "absent"].includes(word) ? "" : word);

// How many octets a length field says.
function lengthOf(field) {
  return parseInt(field.length > 2 ? field.slice(2) : field, 16);
}

// The octets of Lc before a command's data, in both its forms.
function lengthBefore(data) {
  const digits = (data.length / 2).toString(16);
  return [digits.padStart(2, "0"), `00${digits.padStart(4, "0")}`];
}

// Whether the octets in `own`, from place `from` on, are right for a data object or an entry of a list.
function isObject(own, all, from, [tag, length, value]) {
  const header = tag + length;
  const size = header.length + 2 * lengthOf(length);
  return own === all.slice(2 * from, 2 * from + size) && own.startsWith(header)
    && (value === "constructed" || own === header + octetsOf(value));
}

// Whether `own` is the Le field at the end of a command.
function isLe(value, own, all) {
  if (value === "none") return own === "";
  const most = own.length > 2 ? 65536 : 256;
  return all.endsWith(own) && (parseInt(own, 16) || most) === Number(value);
}

// Whether a line of a command lights up the right octets: its data have those of Lc before them.
function isOfCommand([name, value], own, all) {
  if (name === "case") return own === all;
  if (name === "header") return own === value && all.startsWith(value);
  if (name === "le") return isLe(value, own, all);
  const data = octetsOf(value);
  return data === "" ? own === "" : lengthBefore(data).some((it) => own === it.toUpperCase() + data);
}

// The octets of so many blocks at the front, by the LEN of each.
function frontOf(all, count) {
  let end = 0;
  for (let block = 0; block < count; block++) end += 8 + 2 * parseInt(all.slice(end + 4, end + 6), 16);
  return all.slice(0, end);
}

// Whether a line of an answer to reset lights up the right octets.
function isOfAtr([name, value], own, all) {
  if (name === "convention") return own === all.slice(0, 2);
  return own === (/^(T|tck|hist)/.test(name) ? octetsOf(value) : "");
}

// Whether a line of a value lights up the right octets: `own` are these, from place `from` on, and `all` the value's.
const RIGHT = {
  atr: isOfAtr,
  block: ([name, value], own, all) => own === (name === "pcb" ? all.slice(2, 4) : octetsOf(value)),
  chain: ([name, value], own, all) => own === (name === "message" ? octetsOf(value) : frontOf(all, Number(value))),
  response: ([, value], own) => own === octetsOf(value),
  command: isOfCommand,
  dol: ([name, value], own, all) => (name === "entries" ? own === all
    : own.startsWith(name) && lengthOf(own.slice(name.length)) === Number(value)),
  tlv: ([name, length, value], own, all, from) => (name === "objects" ? own === all
    : isObject(own, all, from, [name, length, value])),
};

// The kinds whose lines but the first have all octets of the value together.
const WHOLE = ["response", "command", "dol"];

// The values of vectors/, once each: the kind, the octets, and the options.
function* values() {
  const seen = new Set();
  for (const { words: [does, kind, hex, ...more], status } of cases()) {
    const options = Object.fromEntries(["ifs", "number"].map((it) => [it, more[more.indexOf(`--${it}`) + 1]])
      .filter(([it]) => more.includes(`--${it}`)));
    const isOne = ["show", "check"].includes(does) && KINDS.includes(kind) && /^([0-9A-Fa-f]{2})+$/.test(hex ?? "");
    const key = [kind, hex, JSON.stringify(options)].join();
    if (!isOne || status > 1 || hex.length > 400 || seen.has(key)) continue;
    seen.add(key);
    yield { kind, hex: hex.toUpperCase(), ...options };
  }
}

// Compares the places of the lines of one value.
function compare(checks, { kind, hex, what }, { lines, places, below }) {
  const [strip] = below;
  checks.equal(`${what}: its strip`, strip.textContent, hex);
  const [, stop] = lines[0].match(/^(?:short|refused) at (\d+)/) ?? [];
  if (stop) {
    const [marked, at] = [strip.inside.filter((it) => it.class === "octet stop"), Number(stop)];
    checks.equal(`${what}: its mark`, marked.map((it) => it["data-lit"]).join(), at < hex.length / 2 ? stop : "");
    checks.equal(`${what}: the octet of its line`, places[0].join(), at < hex.length / 2 ? stop : "");
    return "refused";
  }
  const own = places.map((it) => it.map((at) => hex.slice(2 * at, 2 * at + 2)).join(""));
  for (const [at, line] of lines.entries()) {
    const [, ...parts] = line.match(WORDS);
    checks.equal(`${what}: the octets of ${line}: ${own[at]}`, RIGHT[kind](parts, own[at], hex, places[at][0]), true);
  }
  const rest = kind === "response" ? own : own.slice(1);
  if (WHOLE.includes(kind) && hex) checks.equal(`${what}: its lines together`, rest.join(""), hex);
  return kind;
}

// The tree of data objects nests as the program's lines are indented.
function nested(element, depth = -1) {
  const inside = element.inside.filter((it) => it.inside).flatMap((it) => nested(it, depth + (element.tag === "ul")));
  return element["data-lit"] ? [`${"  ".repeat(depth)}${element.inside[0]}`, ...inside] : inside;
}

// The strip, the places and the tree of each value of vectors/.
export async function valuesPictured(checks, page, ask) {
  const counts = {};
  for (const { kind, hex, ifs = "", number = "" } of values()) {
    page.fill({ do: "show", kind, ifs, first: number, text: hex });
    const what = `${kind} ${hex}`;
    const found = await page.strip(ask, page.asked());
    if (!found.lines) {
      checks.equal(`${what}: whether it has no strip`, hex.length, 2);
      continue;
    }
    const is = compare(checks, { kind, hex, what }, found);
    counts[is] = (counts[is] ?? 0) + 1;
    const lines = found.lines.slice(1).join("\n");
    if (is === "tlv") checks.equal(`${what}: its tree`, nested(found.below[2]).join("\n"), lines);
  }
  console.log(`form: pictures: ${Object.entries(counts).map(([name, count]) => `${count} ${name}`).join(", ")}`);
  for (const name of [...KINDS, "refused"]) checks.equal(`whether some are ${name}`, counts[name] > 5, true);
}

// The blocks of a trace that judge counts, as they are written: PPS before the others and after `reset` isn't one.
function blocksOf(trace) {
  const found = [];
  let isFirst = true;
  for (const [side, hex = ""] of trace.split("\n").map((it) => it.trim().split(/[ \t]+/))) {
    if (side === "reset") isFirst = true;
    if (side === "begins") isFirst = false;
    if (!["t", "c"].includes(side) || (isFirst && hex.toUpperCase().startsWith("FF"))) continue;
    isFirst = false;
    found.push(hex === "none" ? hex : hex.toUpperCase());
  }
  return found;
}

// The marks in a drawing: the row, and the number of the block that judge names in it.
const marksOf = (svg) => [...svg.matchAll(/<g .*stroke-width="5".*/g)].flatMap(([row]) => [...row.matchAll(
  /<text x="98"[^>]*>(?:block|[^<]* to block) (\d+)/g)].map(([, block]) => [row, Number(block)]));

// What judge says of the traces of vectors/ is at the blocks that it names.
export async function tracesPictured(checks, page, ask, urls) {
  const counts = { drawn: 0, marks: 0 };
  for (const { words, input, status } of cases()) {
    if (words[0] !== "judge" || words.length !== 2 || status > 1 || input.length > 2000) continue;
    page.fill({ do: "judge", atr: words[1], text: input });
    const what = `${words.join(" ")} ${JSON.stringify(input)}`;
    const { told } = JSON.parse((await ask(["judge", words[1], "--json"], input)).text);
    const { below } = await page.judged(ask, page.asked());
    if (!told) continue;
    checks.equal(`${what}: whether it is drawn`, below.length, 1);
    const [marks, blocks] = [marksOf(await urls.at(-1).text()), blocksOf(input)];
    counts.drawn++;
    counts.marks += marks.length;
    for (const [row, block] of marks) {
      checks.equal(`${what}: whether ${block} is in ${row}`, row.includes(`  ${blocks[block - 1].slice(0, 14)}`), true);
    }
    const isUnsure = /^reset/m.test(input) && blocks.length < input.match(/^[tc]/gm)?.length;
    const want = isUnsure ? [] : told.map((it) => it.block ?? it.before).filter((it) => it);
    checks.equal(`${what}: its marks`, marks.map(([, it]) => it).join(), want.sort((a, b) => a - b).join());
  }
  console.log(`form: pictures: ${counts.drawn} traces with ${counts.marks} marks`);
  checks.equal("whether many traces are drawn", counts.drawn > 3000 && counts.marks > 2000, true);
}

const DUMP = "00000000: 3b80 8001 01  ;....\n";

// The strip in each form of the input, and the inputs that have none.
export async function formsPictured(checks, page, ask) {
  const show = { do: "show", kind: "atr" };
  for (const [what, values, want] of [
    ["groups", { text: "3b 80\n80 01 01" }, "3B80800101"],
    ["a dump", { form: "dump", text: DUMP }, "3B80800101"],
    ["a source", { form: "source", text: "{0x3B, 0x80, 0x80, 0x01, 0x01}" }, "3B80800101"],
    ["lines", { form: "lines", text: "3B80800101\n" }, undefined],
    ["no octets", { text: "none" }, undefined],
    ["a text that isn't octets", { text: "3B8" }, undefined],
    ["256 octets", { text: `3B00${"41".repeat(254)}` }, `3B00${"41".repeat(254)}`],
    ["257 octets", { text: `3B00${"41".repeat(255)}` }, undefined],
  ]) {
    page.fill({ ...show, ...values });
    const { below } = await page.strip(ask, page.asked());
    checks.equal(`the strip of ${what}`, below?.[0].textContent, want);
  }
}

const rowsOf = (svg) => svg.split("\n").filter((it) => it.startsWith("<g ")).join("\n");
const exchange = (...moments) => ["scard-exchange 2", "atr 3B808131204555",
  ...moments.flatMap((it) => [`at ${it}`, "t 00800080", "c 00900090"]), ""].join("\n");

// The moments at the left of a drawing are to scale, each with a line to its row. What judge says moves the rows below.
export async function momentsPictured(checks, page, ask) {
  const svg = async (...moments) => (await ask(["draw", "--svg"], exchange(...moments))).text;
  const three = await svg(500, 1500, 4500);
  const drawing = page.drawn(three);
  const ticks = [...drawing.matchAll(/M-96 ([\d.]+)h12L74 ([\d.]+)/g)].map(([, at, row]) => [Number(at), Number(row)]);
  const rows = [...three.matchAll(/translate\(0 (\d+)\)"><text class="middle"/g)].map(([, y]) => Number(y) + 12);
  checks.equal("the rows of the moments", ticks.map(([, row]) => row).join(), rows.join());
  const [first, middle, last] = ticks.map(([at]) => at);
  checks.equal("where the first and the last moment are", [first, last].join(), [rows[0], rows[2]].join());
  checks.equal("where the middle moment is", middle, first + (last - first) / 4);
  checks.equal("the other rows", rowsOf(drawing), rowsOf(three));
  checks.equal("its size", drawing.includes('width="960" height="276" viewBox="-100 0 960 276"'), true);
  for (const moments of [[], [7], [7, 7]]) {
    const plain = await svg(...moments);
    checks.equal(`a drawing of ${moments.length} moments`, /M-96|NaN/.test(page.drawn(plain)), false);
    checks.equal("its rows", rowsOf(page.drawn(plain)), rowsOf(plain));
  }
  const marked = page.drawn(three, { 1: ["one", "two"], 6: ["six"] });
  const places = (text) => [...text.matchAll(/translate\(0 (\d+)\)/g)].map(([, y]) => Number(y));
  const moved = places(three).map((y, at) => y + (at > 2 ? 48 : 0));
  checks.equal("the rows below what judge says", places(marked).join(), moved.join());
  checks.equal("the height with three lines more", marked.includes('height="348" viewBox="-100 0 960 348"'), true);
}
