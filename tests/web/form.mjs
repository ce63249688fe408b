// Tests the page's form in a document of a few lines, without a browser.
//
// usage: node tests/web/form.mjs PAGE
//
// PAGE is the file that web/make made. Its whole script runs, with its worker. Texts that aren't hexadecimal are typed
// into the page as it opens. Then each example is chosen, values put in, files are dropped, the address is written and
// read again, a call is stopped, and a module ends with an error. Each line of each value of vectors/ has to light up
// its own octets, and what judge says has to be at its blocks. Then each line of vectors/ goes through the form, and
// status and text have to be the line's. The look of the page isn't tested. The last line is 'N passed, M failed'.
import { cases, through, TRAPS, withModule } from "./cases.mjs";
import { Checks } from "./checks.mjs";
import { File, opened, read } from "./paper.mjs";
import { formsPictured, momentsPictured, tracesPictured, valuesPictured } from "./pictures.mjs";
import { SAID, SHOWN_LINES, TEXTS } from "./shown.mjs";

const text = read(process.argv[2]);
const NAMES = "SUBCOMMANDS, asked, drawn, fill, judged, later, lineOf, program, quoted, split, strip, valuesOf";
const { own, find, examples, location, handlers, urls } = opened(text, NAMES);
const checks = new Checks("form", 20);

// Waits until the line of the status begins with this, for ten seconds at most.
async function said(what, want, where = find) {
  for (let times = 0; times < 1000 && !where("status").textContent.startsWith(want); times++) {
    await new Promise((go) => { setTimeout(go, 10); });
  }
  checks.equal(what, where("status").textContent.slice(0, want.length), want);
}

// Does something, waits for its answer, and compares the status and the beginning of the text.
async function gives(what, act, [status, begins]) {
  find("status").textContent = "";
  await act();
  await said(what, `Exit status ${status}`);
  checks.equal(`${what}: its text`, find("out").textContent.replace("Its text", "").slice(0, begins.length), begins);
}

function put(values, page = own) {
  page.fill(values);
  page.later();
}

function choose(at) {
  find("examples").handlers.click({ target: { closest: () => ({ dataset: examples[at] }) } });
}

// Runs the program, as the page does for its pictures.
async function ask(words, input) {
  const { status, parts } = await own.program.run(words, input);
  return { status, text: await new Blob(parts).text() };
}

async function vectors() {
  const counts = {};
  const page = { ...own, fileOf: (octets) => new File(octets), run: (...call) => own.program.run(...call) };
  for (const one of cases()) {
    const [by, status, told] = await through(page, one);
    counts[by] = (counts[by] ?? 0) + 1;
    checks.equal(`${one.at}: ${one.words.join(" ")}`, `${status} ${told}`, `${one.status} ${one.said}`);
  }
  checks.equal("lines that the form can't say", counts.neither ?? 0, 0);
  checks.equal("whether many go by the fields", counts.fields > 4000, true);
  console.log(`form: vectors: ${counts.fields} by the fields, ${counts.line} by the line of words`);
}

// Chooses each example, and opens the address that the page writes for it.
async function chosen() {
  checks.equal("the examples", examples.length, SAID.length);
  for (const [at, want] of SAID.entries()) {
    await gives(`example ${at + 1}`, () => choose(at), want);
    find("share").handlers.click();
    const [address, line] = [location.hash, find("command").textContent];
    await gives("no octets", () => put({ do: "check", kind: "atr", text: "none" }), [1, "short at 0\n"]);
    location.hash = address;
    await gives(`the address of example ${at + 1}`, () => handlers.hashchange(), want);
    checks.equal(`the line of the address of example ${at + 1}`, find("command").textContent, line);
  }
}

// Texts that aren't hexadecimal, typed into the page as it opens. The page names the place, as the program does.
async function refused() {
  for (const [typed, place] of [
    ["3b:80:80", "line 1, column 3: ':' isn't a hexadecimal digit\n3b:80:80\n  ^\n"],
    ["3B,80,80", "line 1, column 3: ',' isn't a hexadecimal digit\n3B,80,80\n  ^\n"],
    ["3B 80 8", "line 1, column 7: this group has an odd number of digits\n3B 80 8\n      ^\n"],
    ["3B\nzz", "line 2, column 1: 'z' isn't a hexadecimal digit\nzz\n^\n"],
  ]) {
    const type = () => { find("text").value = typed; own.later(); };
    await gives(`the text ${typed}`, type, [2, `fault: hex\n${place}`]);
  }
}

// Words from fields and from a line, and the line for a shell.
function words() {
  for (const [values, want] of [
    [{ do: "show", kind: "atr", ifs: "3", first: "1" }, "show atr --stdin hex"],
    [{ do: "show", kind: "block", ifs: "3", first: "1", notes: "1" }, "show block --stdin hex --ifs 3 --notes"],
    [{ do: "check", kind: "atr", notes: "1", svg: "1" }, "check atr --stdin hex"],
    [{ do: "check", kind: "chain", form: "dump", first: "1", notes: "1" }, "check chain --stdin dump --number 1"],
    [{ do: "chain", message: "" }, "build chain 254 0 ''"],
    [{ do: "tidy", tidied: "octets", json: "1" }, "build tidy --stdin octets --json"],
    [{ do: "fill", list: "9F0206", values: "n:9F02:1 o:9A:00" }, "build fill 9F0206 n:9F02:1 o:9A:00"],
    [{ do: "judge", atr: "3B 00", end: "card", clock: "9", rules: "1" }, "judge '3B 00' --end card --clock 9 --rules"],
    [{ do: "draw", svg: "1", explain: "1" }, "draw --svg --explain"],
    [{ do: "simulate", atr: "3B00", lose: "2" }, "simulate 3B00 --stdin lines --lose 2"],
    [{ do: "words", line: "help  show" }, "help show"],
    [{ do: "nothing", line: "-V" }, "-V"],
  ]) {
    own.fill(values);
    checks.equal(`the words ${want}`, own.lineOf({ words: own.asked().words, text: "" }), `scard ${want}`.trim());
  }
  for (const [line, want] of [["", []], [" a\tb\n", ["a", "b"]], ["'a b'c", ["a bc"]], ["''", [""]],
    ['"a\\"b\\c"', ['a"b\\c']], ["a\\ b", ["a b"]], ["it's", ["it's"]]]) {
    checks.equal(`the words of ${line}`, JSON.stringify(own.split(line)), JSON.stringify(want));
  }
  for (const word of ["", "it's", 'a "b" \\ $c', "\u00e9\t\n"]) {
    checks.equal(`the word ${word}`, JSON.stringify(own.split(own.quoted(word))), JSON.stringify([word]));
  }
  const shell = (it) => own.lineOf({ words: ["apdus"], text: "", ...it });
  checks.equal("a text in a shell", shell({ text: "a 'b'\n" }), "printf %s 'a '\\''b'\\''\n' | scard apdus");
  checks.equal("a long text in a shell", shell({ text: "0".repeat(5000) }), "scard apdus <input.txt");
  checks.equal("a file in a shell", shell({ file: { name: "my file" } }), "scard apdus <'my file'");
}

// Addresses of earlier pages.
function addresses() {
  const line = (address) => {
    own.fill(own.valuesOf(address));
    return own.lineOf({ ...own.asked(), text: "" });
  };
  checks.equal("no address", own.valuesOf(""), null);
  for (const [address, want] of [
    ["kind=atr&text=3B", "show atr --stdin hex --notes --explain"],
    ["kind=chain&text=00&ifs=2&first=1&notes=0", "show chain --stdin hex --ifs 2 --number 1 --explain"],
    ["kind=command&text=00&each=1", "show command --stdin lines --notes --explain"],
    ["kind=exchange&text=scard", "replay --end both --explain"],
    ["kind=trace&text=t&atr=3B00", "judge 3B00 --explain"],
  ]) checks.equal(`the address ${address}`, line(address), `scard ${want}`);
}

// Files that are dropped and chosen, what is shown of a long text, and what is hidden.
async function files() {
  own.fill({ do: "show", kind: "response", form: "octets" });
  const drop = (file) => handlers.drop({ preventDefault() {}, dataTransfer: { files: [file] } });
  const dropped = new File(Uint8Array.of(0x6a, 0x82), "r.bin");
  await gives("a file that is dropped", () => drop(dropped), [0, "part none\nstatus 6A82 checking\n"]);
  checks.equal("its line", find("command").textContent, "scard show response --stdin octets <r.bin");
  checks.equal("whether its text waits", find("text").disabled, true);
  await gives("the text and not the file", () => find("no-file").handlers.click(), [1, "short at 0\n"]);
  find("file").files = [new File(new Uint8Array([0x90, 0]), "s.bin")];
  await gives("a file that is chosen", () => find("file").handlers.change(), [0, "part none\nstatus 9000 normal\n"]);
  await gives("16,384 objects", () => put(TEXTS[0][1]), [0, "objects 16384\n50 00 none"]);
  const shown = find("out").every().find((it) => it.tag === "pre").textContent;
  checks.equal("its lines", shown.split("\n").length, SHOWN_LINES);
  checks.equal("what says that there are more", find("out").textContent.includes("The file has all of it."), true);
  own.fill({ do: "chain" });
  const hidden = ["input-part", "field-message-part", "field-kind-part", "flag-json-part", "flag-svg-part"];
  checks.equal("what a chain asks for", hidden.map((it) => find(it).hidden).join(), "true,false,true,false,true");
  await gives("help", () => find("help").handlers.click(), [0, "Build octets: "]);
}

// The parts of the pictures and of the text that light up octets.
const lighting = (id) => find(id).every().filter((it) => it["data-lit"]);

// Pictures of answers, and of all that vectors/ have. An answer in JSON has a strip, and no line that lights up octets.
async function pictures() {
  const values = { do: "show", kind: "response", text: "019000" };
  await gives("a response", () => put(values), [0, "part 01\nstatus 9000 normal\n"]);
  checks.equal("its strip", lighting("picture").map((it) => it["data-lit"]).join(), "0,1,2");
  checks.equal("its lines", lighting("out").map((it) => it["data-lit"]).join(), "0,1 2");
  await gives("a response in JSON", () => put({ ...values, json: "1" }), [0, '{"version":1,']);
  checks.equal("the strip of JSON", lighting("picture").length, 3);
  checks.equal("the lines of JSON", lighting("out").length, 0);
  await gives("a check", () => put({ ...values, do: "check" }), [0, "ok 3 octets\n"]);
  checks.equal("the strip of a check", lighting("picture").length, 3);
  checks.equal("the lines of a check", lighting("out").length, 0);
  for (let late = 0; late < 60; late += 5) {
    choose(2);
    await new Promise((go) => { setTimeout(go, late); });
    await gives(`an answer ${late} ms after another run`, () => choose(0), SAID[0]);
    checks.equal("its own strip", find("picture").inside[0].textContent, "3B80800101");
  }
  await gives("an answer without a picture", () => put({ do: "words", line: "help" }), [0, ""]);
  checks.equal("its pictures", find("picture").inside.length, 0);
  await formsPictured(checks, own, ask);
  await momentsPictured(checks, own, ask);
  await valuesPictured(checks, own, ask);
  await tracesPictured(checks, own, ask, urls);
}

// A call that is stopped, and a module that ends with an error.
async function ends() {
  const stopped = own.program.run(["-V"], new File(new Uint8Array()));
  own.program.stop();
  checks.equal("a call that is stopped", await stopped, null);
  await gives("the call after it", () => choose(0), SAID[0]);
  const { own: other, find: where } = opened(withModule(text, Buffer.from(TRAPS, "base64")), NAMES);
  await said("another module", "Exit status 1", where);
  for (let times = 0; times < 2; times++) {
    put({ do: "words", line: "" }, other);
    await said("an error of the module", "The module ended with an error: unreachable", where);
    put({ do: "words", line: "help" }, other);
    await said("the call after an error", "Exit status 1", where);
  }
  const { find: broken } = opened(withModule(text, Buffer.from("none")), NAMES);
  await said("a module that isn't one", "The module ended with an error: ", broken);
}

await gives("the first example", () => {}, SAID[0]);
await refused();
words();
addresses();
await chosen();
await files();
await ends();
await pictures();
await vectors();
checks.end(50000);
