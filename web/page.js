// The page: the form, the worker that runs the program, and the answer.

// The milliseconds after the last key and until a run is reported; and what is shown of a text.
const [WAIT, NOTED, SHOWN_OCTETS, SHOWN_LINES, PART_LINES] = [150, 200, 1 << 18, 2000, 100];
const STOPPED = new Error("stopped");

const part = (id) => document.getElementById(id);

// Makes an element with attributes and what is inside.
function made(name, attributes, ...inside) {
  const element = document.createElement(name);
  for (const [key, value] of Object.entries(attributes)) element.setAttribute(key, value);
  element.append(...inside);
  return element;
}

// The program in a worker, which runs one call at a time.
class Program {
  constructor() {
    this.address = URL.createObjectURL(new Blob([part("worker").textContent], { type: "text/javascript" }));
    this.begin();
  }

  begin() {
    this.call = null;
    this.worker = new Worker(this.address);
    this.worker.onmessage = ({ data }) => this.take(data);
    this.worker.onerror = ({ message }) => this.take({ error: message || "the worker can't start" });
    this.worker.postMessage({ module: part("module").textContent });
  }

  take(data) {
    if ("at" in data) return this.call?.far(data.at);
    this.call?.ends(data);
    this.call = null;
  }

  // Runs the program. Returns its status and text, or an error, or nothing if the call was stopped.
  run(words, input, far = () => {}) {
    this.stop();
    return new Promise((ends) => {
      this.call = { ends, far };
      this.worker.postMessage({ words, input });
    });
  }

  // Stops a call that runs: the worker ends, and another one begins.
  stop() {
    if (!this.call) return;
    this.call.ends(null);
    this.worker.terminate();
    this.begin();
  }
}

const saved = [];
let [program, file, runs, waiting] = [null, null, 0, 0];

// Shows only those parts of the form that the subcommand and the kind use. Long lines aren't broken: that takes long.
function adjust() {
  const values = given();
  const { flags, reads } = SUBCOMMANDS[values.do];
  const names = fieldsOf(values.do).filter((it) => belongs(it, values));
  for (const name of Object.keys(FIELDS)) part(`field-${name}-part`).hidden = !names.includes(name);
  for (const name of Object.keys(FLAGS)) part(`flag-${name}-part`).hidden = !flags.includes(name);
  part("input-part").hidden = !reads;
  part("text-note").textContent = INPUTS[reads]?.join(" ") ?? "";
  part("text").disabled = file !== null;
  part("text").wrap = part("text").value.length > SHOWN_OCTETS ? "off" : "soft";
  if (!file) part("file").value = "";
  part("file-part").hidden = file === null;
  part("file-name").textContent = file ? `The input is the file ${file.name}, ${file.size} octets. ` : "";
}

// Returns the values of the form, but for its text.
function given() {
  const fields = Object.keys(FIELDS).map((name) => [name, part(`field-${name}`).value]);
  const flags = Object.keys(FLAGS).map((name) => [name, part(`flag-${name}`).checked ? "1" : "0"]);
  return { do: part("do").value, ...Object.fromEntries([...fields, ...flags]) };
}

// Puts values into the form, and the defaults of all others.
function fill(values, chosen = null) {
  file = chosen;
  part("do").value = Object.hasOwn(SUBCOMMANDS, values.do) ? values.do : "words";
  for (const [name, { choices, value = "" }] of Object.entries(FIELDS)) {
    const known = !choices || Object.hasOwn(choices, values[name] ?? "");
    part(`field-${name}`).value = (known && values[name]) || (choices ? Object.keys(choices)[0] : value);
  }
  for (const name of Object.keys(FLAGS)) part(`flag-${name}`).checked = values[name] === "1";
  part("text").value = values.text ?? "";
  adjust();
}

// Returns the words and the input that the form stands for.
function asked() {
  const values = given();
  const { reads } = SUBCOMMANDS[values.do];
  const [text, chosen] = [reads && !file ? part("text").value : "", reads ? file : null];
  return { values, words: wordsOf(values), text, file: chosen, input: chosen ?? text };
}

// Runs the program for what the form contains, and shows its answer.
async function run() {
  clearTimeout(waiting);
  const [number, now, bar] = [++runs, asked(), part("progress")];
  part("command").textContent = lineOf(now);
  part("shared").textContent = "";
  const late = setTimeout(() => {
    Object.assign(part("status"), { className: "", textContent: "The program runs." });
    bar.removeAttribute("value");
    [bar.hidden, part("stop").disabled] = [false, false];
  }, NOTED);
  const max = now.file?.size ?? now.text.length;
  const told = await program.run(now.words, now.input, (at) => Object.assign(bar, { max, value: at }));
  clearTimeout(late);
  if (number !== runs) return;
  [bar.hidden, part("stop").disabled] = [true, true];
  if (told?.parts) await answered(number, now, told);
  else show("no", told ? `The module ended with an error: ${told.error}` : "Stopped.");
}

// Makes the pictures of an answer with further runs of the program. There are none if another run stops these.
async function pictures(number, now, head) {
  const kind = SUBCOMMANDS[now.values.do].picture;
  if (!kind || (now.input.size ?? now.input.length) > MOST_TEXT) return {};
  const ask = async (words, input) => {
    const told = number === runs ? await program.run(words, input) : null;
    if (!told?.parts || number !== runs) throw STOPPED;
    return { status: told.status, text: await new Blob(told.parts).text() };
  };
  return PICTURES[kind](ask, now, head).catch((why) => ({ fault: why === STOPPED || console.error(why) }));
}

// Shows an answer: its status, its text and its pictures. Lines of the text light up their octets.
async function answered(number, now, { status, parts }) {
  const head = await new Blob(parts.map((it) => it.subarray(0, SHOWN_OCTETS))).slice(0, SHOWN_OCTETS).text();
  if (number !== runs) return;
  const text = new Blob(parts);
  saved.splice(0).forEach((it) => URL.revokeObjectURL(it));
  const { lines, places = [], below = [] } = await pictures(number, now, head);
  if (number !== runs) return;
  const isCut = text.size > SHOWN_OCTETS;
  const all = shown(head, isCut, bare(head.split("\n")[0]) === lines?.[0] ? places : []);
  const isPicture = head.startsWith("<svg");
  const folded = isPicture ? made("details", {}, made("summary", {}, "Its text"), ...all.splice(0)) : null;
  if (isPicture) all.push(pictured(isCut ? text : drawn(head)), folded);
  const [href, download] = [addressFor(text, "application/octet-stream"), isPicture ? "scard.svg" : "scard.txt"];
  const said = `Save this text as ${download} (${text.size} octets)`;
  if (text.size) all.push(made("p", {}, made("a", { href, download }, said)));
  show(status === 0 ? "yes" : "no", `Exit status ${status}`, all, below);
  performance.mark("answered");
}

// Shows a line, and other elements below it.
function show(kind, line, below = [], above = []) {
  Object.assign(part("status"), { className: kind, textContent: line });
  part("picture").replaceChildren(...above);
  part("out").replaceChildren(...below);
}

// Makes an address of a text, which lasts until the next answer.
function addressFor(text, type) {
  saved.unshift(URL.createObjectURL(new Blob([text], { type })));
  return saved[0];
}

function pictured(text) {
  const alt = "The session as a ladder; draw without --svg gives it as text";
  return made("p", { class: "picture", tabindex: "0" }, made("img", { alt, src: addressFor(text, "image/svg+xml") }));
}

// Shows the first lines of a text, in parts: a browser lays out only those on the screen. Lines may have places.
function shown(head, isCut, places) {
  const lines = head.split("\n");
  const isLonger = isCut || lines.length > SHOWN_LINES;
  const first = lines.slice(0, SHOWN_LINES);
  const count = Math.ceil(first.length / PART_LINES);
  const parts = Array.from({ length: count }, (_, at) => {
    const piece = first.slice(at * PART_LINES, (at + 1) * PART_LINES);
    return made("span", count > 1 ? { class: "part" } : {}, piece.join("\n") + (at + 1 < count ? "\n" : ""));
  });
  const lit = (line, at) => [at ? "\n" : "", lighting("label", places[at] ?? [], "", { class: "line" }, line)];
  const inside = places.length ? lines.flatMap(lit) : parts;
  const pre = made("pre", { tabindex: "0", role: "region", "aria-label": "The program's text" }, ...inside);
  return [pre, ...(isLonger ? [made("p", {}, "This is the beginning of the text. The file has all of it.")] : [])];
}

// Puts the form into the address. Only a button calls it: octets may be secret, and a browser keeps a history.
function share() {
  const { values, text, file: chosen } = asked();
  history.replaceState(null, "", `#${addressOf(values, text)}`);
  part("shared").textContent = `The address now has the words${chosen ? ", without the file" : " and the input"}.`;
}

// Puts values into the form, if there are any, and runs the program.
function put(values, chosen) {
  if (values) fill(values, chosen);
  run();
}

// Takes a file as the input, or the text again.
const take = (chosen) => put({ ...given(), text: part("text").value }, chosen);

// Runs the program after the last key, when the input hasn't changed for a while.
function later() {
  adjust();
  clearTimeout(waiting);
  waiting = setTimeout(run, WAIT);
}

// Lights up the octets of the line that is pointed at or has the focus, or the lines of an octet.
function light({ target }) {
  const own = target.closest?.("[data-lit]") ?? document.activeElement?.closest("[data-lit]");
  const octets = own?.dataset.lit.split(" ") ?? [];
  for (const it of part("answer").querySelectorAll("[data-lit]")) {
    const isOther = own?.matches(".octet") !== it.matches(".octet") || it.dataset.lit === own.dataset.lit;
    it.classList.toggle("lit", isOther && it.dataset.lit.split(" ").some((at) => octets.includes(at)));
  }
  part("lit")?.replaceChildren(own?.title ?? "");
}

function listen() {
  const on = (id, name, call) => part(id).addEventListener(name, call);
  on("text", "beforeinput", ({ data, target }) => data?.length > SHOWN_OCTETS && (target.wrap = "off"));
  on("asking", "input", later);
  on("file", "change", () => part("file").files.length && take(part("file").files[0]));
  on("no-file", "click", () => take(null));
  on("stop", "click", () => program.stop());
  on("share", "click", share);
  on("help", "click", () => {
    put({ do: "words", line: `help ${SUBCOMMANDS[part("do").value].words[0].replace(/^\$.*/, "")}` });
  });
  on("examples", "click", ({ target }) => target.closest("button") && put(target.closest("button").dataset));
  for (const name of ["pointerover", "pointerleave", "focusin"]) on("answer", name, light);
  document.addEventListener("dragover", (event) => event.preventDefault());
  document.addEventListener("drop", (event) => {
    const [chosen] = event.dataTransfer.files;
    if (chosen) (event.preventDefault(), take(chosen));
  });
  addEventListener("hashchange", () => put(valuesOf(location.hash.slice(1))));
}

listen();
program = new Program();
fill(part("examples").querySelector("button").dataset);
put(valuesOf(location.hash.slice(1)));
