// Pictures of an answer: octets as a strip, data objects as a tree, a session as a ladder. `ask` runs the program. Its
// answers have all places, names and drawings: nothing here looks at an octet.

// The most octets of a strip, the most octets of a text that is drawn, and the height of a row in a drawing.
const [MOST_OCTETS, MOST_TEXT, ROW] = [256, 1 << 12, 24];

const bare = (line) => line.split("  # ")[0];
const noted = (line) => line.split("  # ")[1] ?? "";
const range = (from, to) => Array.from({ length: Math.max(0, to - from) }, (_, at) => from + at);

// Makes a part that lights up octets. A label has a radio button, so that arrow keys move between labels of a group.
function lighting(name, places, note, attributes, ...inside) {
  if (!places.length) return made("span", {}, ...inside);
  const title = (places[1] ? `octets ${places[0]} to ${places.at(-1)}` : `octet ${places[0]}`) + (note && `: ${note}`);
  const group = name === "label" ? [made("input", { type: "radio", name: attributes.class.split(" ")[0] })] : [];
  return made(name, { "data-lit": places.join(" "), title, ...attributes }, ...group, ...inside);
}

// The octets of a line, by the bounds of their ranges.
function octetsOf(bounds) {
  return bounds.flatMap((from, at) => (at % 2 ? [] : range(from, bounds[at + 1])));
}

// Makes the tree of data objects, as their depths nest them, each with the program's line and its note.
function tree(objects, notes, places) {
  const open = [made("ul", { class: "tree", "aria-label": "Data objects" })];
  for (const [at, { depth, constructed }] of objects.entries()) {
    const text = [notes[at].line.trim(), " ", made("small", {}, notes[at].note)];
    const own = lighting(constructed ? "summary" : "span", places[at], "", { tabindex: "0" }, ...text);
    open[depth] = made("ul", {});
    open[depth - 1].append(made("li", {}, constructed ? made("details", { open: "" }, own, open[depth]) : own));
  }
  return open[0];
}

// Makes the strip of a value's octets, with those of each line. An octet says what the program says after those before.
async function strip(ask, { values, values: { form, kind }, input }) {
  const read = await ask(["show", "response", "--stdin", form, "--json"], input);
  const { part = "", status: last = "" } = read.status === 0 && form !== "lines" ? JSON.parse(read.text) : {};
  const octets = (part + last).match(/../g) ?? [];
  if (!octets.length || octets.length > MOST_OCTETS) return {};
  const show = { ...values, do: "show", notes: "1", explain: "0", json: "0" };
  const beginnings = ["none", ...octets.map((_, at) => octets.slice(0, at + 1).join(""))].join("\n");
  const { text } = await ask(wordsOf({ ...show, form: "lines" }), beginnings);
  const answers = text.split("\n\n").slice(0, -1).map((it) => it.split("\n"));
  const lines = answers.at(-1).map(bare);
  const [, stop] = lines[0].match(/^(?:short|refused) at (\d+)/) ?? [];
  const next = answers.map(([first]) => (first.startsWith("short") ? noted(first) : ""));
  const boxes = octets.map((octet, at) => lighting("label", [at], next[at],
    { class: String(at) === stop ? "octet stop" : "octet" }, octet));
  const below = [made("div", { class: "strip", role: "radiogroup", "aria-label": "Octets" }, ...boxes),
    made("p", { id: "lit", role: "status" })];
  if (stop) return { lines, places: [range(Number(stop), octets.length).slice(0, 1)], below };
  const { objects, notes, places } = JSON.parse((await ask(wordsOf({ ...show, json: "1" }), input)).text);
  const lit = places.map(octetsOf);
  if (kind === "tlv") below.push(tree(objects, notes, lit.slice(1)));
  return { lines, places: lit, below };
}

// Adds to the program's drawing what judge says of blocks, below them, and its moments at the left, to scale.
function drawn(svg, told = {}) {
  const moments = [];
  let [blocks, more] = [0, 0];
  const laid = svg.replace(/translate\(0 (\d+)\)">(.*)<\/g>/g, (_, own, row) => {
    const y = Number(own) + more;
    const [, moment] = row.match(/^<text class="middle"[^>]*>at (\d+)</) ?? [];
    if (moment) moments.push([Number(moment), y + ROW / 2]);
    const lines = (row.includes('class="number"') && told[++blocks]) || [];
    const mark = '<path class="lost" stroke-width="5" d="M88';
    const said = lines.map((it, at) => `${mark} ${24 + ROW * at}v20"/><text x="98" y="${38 + ROW * at}">${it}</text>`);
    more += ROW * lines.length;
    return `translate(0 ${y})">${row}${said.join("")}</g>`;
  });
  const height = Number(svg.match(/height="(\d+)"/)[1]) + more;
  const [[begin, top], [end, bottom]] = [moments[0] ?? [0, 0], moments.at(-1) ?? [0, 0]];
  const ticks = moments.map(([time, y]) => `M-96 ${top + (time - begin) / (end - begin) * (bottom - top)}h12L74 ${y}`);
  const rail = `<text x="-96" y="18">time</text><path d="M-90 ${top}V${bottom}${ticks.join("")}"/>`;
  const [left, width, scale] = end > begin ? [-100, 960, rail] : [0, 860, ""];
  const size = `width="${width}" height="${height}" viewBox="${left} 0 ${width} ${height}"`;
  return laid.replace(/width="\d+" height="\d+"/, size)
    .replace(/^<path d="M80 26.*$/m, `<path d="M80 26V${height - 10}M780 26V${height - 10}"/>${scale}`);
}

// Draws an exchange, if it isn't long and the program draws it.
async function ladder(ask, exchange, told) {
  if (exchange.length > MOST_TEXT) return {};
  const { status, text } = await ask(["draw", "--svg"], exchange);
  return { below: status ? [] : [pictured(drawn(text, told))] };
}

// Draws a trace as an exchange without calls, with what judge says at the blocks. Judge counts no PPS: it comes first.
// A block with an error of parity is drawn as one of which nothing arrived whole.
async function judged(ask, { values, input }) {
  const { text } = await ask(wordsOf({ ...values, rules: "0", explain: "0", json: "0" }), input);
  const trace = (await new Blob([input]).text()).split("\n").map((it) => it.trim().split(/\s+/)).filter(([it]) => it);
  const lines = trace.map((it) => (/^(reset|begins|until|#)/.test(it[0]) ? ["note", ...it]
    : it.map((word, at) => (at % 2 && word !== "none" ? word.toUpperCase() : word))).join(" ")
    .replace(/^([tc] .*) parity$/, "$1 as none"));
  const all = lines.filter((it) => /^[tc] /.test(it)).length;
  const others = all - Number(text.match(/(\d+) blocks?[,\n]/)?.[1] ?? all);
  const told = {};
  for (const line of text.split("\n")) (told[others + Number(line.match(/block (\d+)/)?.[1])] ??= []).push(line);
  const exchange = ["scard-exchange 2", `atr ${values.atr.toUpperCase()}`, ...lines, ""].join("\n");
  return ladder(ask, exchange, others && lines.includes("note reset") ? {} : told);
}

const PICTURES = { octets: strip, judged, input: (ask, { input }) => ladder(ask, input),
  answer: (ask, _, text) => ladder(ask, text) };
