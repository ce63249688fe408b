// Tests the page in headless Chromium and Firefox, if they are installed. Firefox needs a node that has WebSocket.
//
// usage: node tests/web/browser.mjs PAGE [PICTURES]
//
// PAGE is the file that web/make made. Each line of vectors/ goes through the page's form, and status and text have to
// be the line's, character by character. Then each example is chosen, lines light up their octets by the pointer and by
// keys, a tree is folded, a file is dropped, a long run is stopped, an address is opened, and a module ends with an
// error. The page may load and send nothing, and the browser may complain of nothing. The first answer has to come in a
// second. In Chromium texts are typed too: a forest of 1 MiB has to be shown in a second, and no text of 64 KiB may
// delay other input for 50 milliseconds. These two bounds are for a machine that runs LOOP in 150 milliseconds; on a
// slower one they are as much longer. With PICTURES, pictures of each example go into that folder, wide and narrow,
// light and dark. A browser in which the test stops early is a failure, with its name. The last line is 'N passed, M
// failed'.
import { execFileSync } from "node:child_process";
import { mkdtempSync, readFileSync, rmSync, writeFileSync } from "node:fs";
import { tmpdir } from "node:os";
import { join } from "node:path";
import { pathToFileURL } from "node:url";
import { cases, through, TRAPS, withModule } from "./cases.mjs";
import { Checks } from "./checks.mjs";
import { Page as Chromium } from "./chromium.mjs";
import { Page as Firefox } from "./firefox.mjs";
import { wait } from "./remote.mjs";
import { SAID, TEXTS } from "./shown.mjs";

const CHROMIUM = ["chromium", "chromium-browser", "google-chrome"];
const FIREFOX = ["firefox-esr", "firefox"];
const BATCH = 500;
const TRIES = 30;
// The milliseconds that the test in one browser may take.
const LONGEST = 600000;
// The milliseconds until a text has to be shown, and for which a text of at most so many characters may delay other
// input.
const [SOON, KEPT, SHORT] = [1000, 50, 65536];
// A loop whose time says how fast a machine is, and the milliseconds that it takes on the machine of these bounds.
const [LOOP, PACE] = [`(() => {
  const began = performance.now();
  let it = 1;
  for (let at = 0; at < 2e7; at++) it = (Math.imul(it, 1664525) + at) | 0;
  globalThis.last = it;
  return performance.now() - began;
})()`, 150];

const [file, pictures] = process.argv.slice(2);
const checks = new Checks("browser", 20);

// Returns the command that starts a browser, if there is one.
function found(names) {
  return names.find((name) => {
    try {
      return execFileSync("sh", ["-c", `command -v ${name}`]);
    } catch {
      return false;
    }
  });
}

// Runs each line of vectors/ through the page's form.
async function compare(page) {
  await page.value(`(globalThis.through = (one) => (${through})({ SUBCOMMANDS, fill, asked, quoted,
    fileOf: (octets) => new File([octets], "file"), run: (...call) => program.run(...call) }, one), 0)`);
  const [found, counts, began] = [[...cases()], {}, performance.now()];
  for (let at = 0; at < found.length; at += BATCH) {
    const batch = found.slice(at, at + BATCH);
    const given = JSON.stringify(batch.map(({ words, input }) => ({ words, input })));
    const told = await page.value(`(async () => {
      const all = [];
      for (const one of ${given}) all.push(await through(one));
      return all;
    })()`);
    for (const [number, one] of batch.entries()) {
      const [by, status, text] = told[number];
      counts[by] = (counts[by] ?? 0) + 1;
      checks.equal(`${one.at}: ${one.words.join(" ")}`, `${status} ${text}`, `${one.status} ${one.said}`);
    }
  }
  const took = ((performance.now() - began) / 1000).toFixed(1);
  console.log(`browser: vectors: ${counts.fields} by the fields, ${counts.line} by the line of words, ${took} seconds`);
}

const STATUS = 'part("status").textContent';
const TEXT = 'part("out").textContent.replace("Its text", "")';

// Does something, waits for its answer, and compares the status and the beginning of the text.
async function gives(page, what, act, [status, begins]) {
  await page.value(`(${STATUS} === "" || (part("status").textContent = ""), ${act}, 0)`);
  await page.until(`${STATUS} === "Exit status ${status}"`).catch(() => {});
  checks.equal(`${what}: its status`, await page.value(STATUS), `Exit status ${status}`);
  checks.equal(`${what}: its text`, await page.value(`${TEXT}.slice(0, ${begins.length})`), begins);
}

const choose = (page, at) => gives(page, `example ${at + 1}`,
  `part("examples").querySelectorAll("button")[${at}].click()`, SAID[at]);

// The picture of the example that has one is an image of its size.
async function pictured(page) {
  await choose(page, SAID.findIndex(([, begins]) => begins.startsWith("<svg")));
  await page.until('document.querySelector("img")?.naturalWidth > 0').catch(() => {});
  checks.equal("the width of the picture", await page.value('document.querySelector("img").naturalWidth'), 860);
}

const LIT = '[...document.querySelectorAll(".octet.lit")].map((it) => it.textContent).join(" ")';

// Moves the pointer to the middle of an element.
async function pointed(page, element) {
  const [x, y] = await page.value(`(() => {
    const it = ${element};
    it.scrollIntoView({ block: "center" });
    const { x, y, width, height } = it.getBoundingClientRect();
    return [Math.round(x + width / 2), Math.round(y + height / 2)];
  })()`);
  await page.point(x, y);
}

// Waits until these octets are lit up, and compares them.
async function lights(page, what, octets) {
  await page.until(`${LIT} === ${JSON.stringify(octets)}`).catch(() => {});
  checks.equal(`${what}: the octets`, await page.value(LIT), octets);
}

// A line lights up its octets by the pointer, by the focus and by keys, and an octet its lines.
async function lit(page) {
  await choose(page, 0);
  const line = (at) => `document.querySelectorAll(".line")[${at}]`;
  checks.equal("the strip", await page.value('document.querySelector(".strip").textContent'), "3B80800101");
  await pointed(page, line(1));
  await lights(page, "the pointer", "80");
  checks.equal("its place", await page.value('part("lit").textContent'), "octet 2");
  await pointed(page, 'document.querySelector("h1")');
  await lights(page, "the pointer elsewhere", "");
  await pointed(page, 'document.querySelectorAll(".octet")[3]');
  const lines = '[...document.querySelectorAll(".line.lit")].map((it) => it.textContent.slice(0, 6)).join()';
  await page.until(`${lines} !== ""`).catch(() => {});
  checks.equal("the line of an octet", await page.value(lines), "TD2 01");
  checks.equal("what the octet is", await page.value('part("lit").textContent'), "octet 3: TD2 comes next");
  await pointed(page, 'document.querySelector("h1")');
  await page.value(`(document.querySelector("#out pre").focus(), 0)`);
  await page.press("Tab");
  await lights(page, "the focus", "3B");
  await page.press("ArrowDown");
  await lights(page, "an arrow key", "80");
  checks.equal("the place of the focus", await page.value('part("lit").textContent'), "octet 2");
  await choose(page, 1);
  checks.equal("the wrong octet", await page.value('document.querySelector(".stop").textContent'), "A4");
  await page.value('(document.querySelectorAll(".octet input")[7].focus(), 0)');
  await page.press("ArrowDown");
  await lights(page, "an arrow key in the strip", "A4");
}

// The tree of data objects folds by a key, and its lines light up their octets.
async function folded(page) {
  await choose(page, 2);
  const object = (at) => `document.querySelectorAll(".tree [data-lit]")[${at}]`;
  await page.value(`(${object(2)}.focus(), 0)`);
  await lights(page, "the focus in the tree", "A5 05 BF 0C 02 50 00");
  const isSeen = () => page.value(`${object(4)}.getClientRects().length > 0 && ${object(4)}.checkVisibility()`);
  checks.equal("whether an object is seen", await isSeen(), true);
  await page.press("Enter");
  await page.until(`!${object(2)}.parentElement.open`).catch(() => {});
  checks.equal("whether it is seen when it is folded", await isSeen(), false);
  await page.press("Tab");
  const isInside = 'document.activeElement.closest(".tree") !== null';
  checks.equal("whether the focus leaves what is folded", await page.value(isInside), false);
}

// Sessions and judged traces have a picture, with moments to scale if they have some. Others have none.
async function drawn(page) {
  const widths = { 5: null, 6: 860, 7: 860, 9: 960 };
  for (const [at, width] of Object.entries(widths)) {
    await choose(page, Number(at));
    await page.until(`!document.querySelector("#picture img") || document.querySelector("#picture img").naturalWidth`);
    const found = await page.value('document.querySelector("#picture img")?.naturalWidth ?? null');
    checks.equal(`the width of the ladder of example ${Number(at) + 1}`, found, width);
  }
}

// Enter in a field leaves the page and its answer as they are.
async function entered(page) {
  await choose(page, 9);
  await page.value('(globalThis.isHere = true, part("field-atr").focus(), 0)');
  await page.press("Enter");
  await wait(100);
  checks.equal("Enter in a field", await page.value(`globalThis.isHere && ${STATUS}`), "Exit status 1");
}

// Drops a file on the page.
async function dropped(page) {
  await gives(page, "a file that is dropped", `(() => {
    fill({ do: "show", kind: "response", form: "octets" });
    const dataTransfer = new DataTransfer();
    dataTransfer.items.add(new File([Uint8Array.of(0x6a, 0x82)], "r.bin"));
    document.body.dispatchEvent(new DragEvent("drop", { dataTransfer, bubbles: true, cancelable: true }));
  })()`, [0, "part none\nstatus 6A82 checking\n"]);
  const line = await page.value('part("command").textContent');
  checks.equal("its line", line, "scard show response --stdin octets <r.bin");
}

// Stops a run over a file that would take minutes. The page answers while it runs, and after it.
async function stopped(page) {
  await page.value(`(() => {
    const lines = new Blob(["3B808131204555\\n".repeat(100000)]);
    fill({ do: "check", kind: "atr", form: "lines" }, new File(Array(400).fill(lines), "long.txt"));
    run();
  })()`);
  await page.until('!part("stop").disabled && part("progress").value > 0');
  checks.equal("a long run", await page.value(STATUS), "The program runs.");
  const began = await page.value('performance.now()');
  await page.value('part("stop").click()');
  await page.until(`${STATUS} === "Stopped."`);
  checks.equal("whether it stops in a second", (await page.value('performance.now()')) - began < SOON, true);
  checks.equal("whether it can't be stopped twice", await page.value('part("stop").disabled'), true);
  await choose(page, 0);
}

// Writes the address of an example, and opens it after another answer.
async function shared(page) {
  const at = 6;
  await choose(page, at);
  await page.value('(part("share").click(), 0)');
  const [address, line] = await page.value('[location.hash, part("command").textContent]');
  await choose(page, 0);
  await page.value('history.replaceState(null, "", "#")');
  await gives(page, "an address", `location.hash = ${JSON.stringify(address)}`, SAID[at]);
  checks.equal("its line", await page.value('part("command").textContent'), line);
}

// Opens a page whose module ends with an error.
async function trapped(page) {
  const folder = mkdtempSync(join(tmpdir(), "scard-page-"));
  const other = join(folder, "trap.html");
  writeFileSync(other, withModule(readFileSync(file, "utf8"), Buffer.from(TRAPS, "base64")));
  await page.load(pathToFileURL(other).href);
  await page.until(`${STATUS} === "Exit status 1"`);
  await page.value('(fill({ do: "words" }), run(), 0)');
  await page.until(`${STATUS}.startsWith("The module ended with an error: ")`).catch(() => {});
  const said = await page.value(STATUS);
  checks.equal("an error of the module", /: (unreachable|.*unreachable executed)$/.test(said) || said, true);
  await gives(page, "the call after an error", 'fill({ do: "words", line: "help" }), run()', [1, ""]);
  rmSync(folder, { recursive: true });
}

// Types a text, and waits until its answer is on the screen. Returns how many milliseconds that took, and for how long
// at most the browser couldn't handle other input. The browser reports such a time only if it is 50 or more.
function typed(page, values) {
  return page.value(`new Promise((answer) => {
    const kept = [];
    const observer = new PerformanceObserver((list) => kept.push(...list.getEntries().map((it) => it.duration)));
    observer.observe({ type: "longtask" });
    fill(${JSON.stringify({ ...values, text: "" })});
    part("status").textContent = "";
    part("text").value = ${JSON.stringify(values.text)};
    part("asking").dispatchEvent(new Event("input"));
    const begun = performance.now() + WAIT;
    const look = () => {
      if (!part("status").textContent.startsWith("Exit")) return setTimeout(look, 5);
      requestAnimationFrame(() => setTimeout(() => {
        const all = performance.now() - begun;
        setTimeout(() => answer({ all, longest: Math.max(0, ...kept), said: part("status").textContent }), 20);
      }));
    };
    look();
  })`);
}

// Returns how much longer the times of this machine may be, by the quickest of some loops.
async function slowness(page) {
  let least = Infinity;
  for (let tries = 0; tries < TRIES; tries++) least = Math.min(least, await page.value(LOOP));
  const times = Math.max(1, least / PACE);
  console.log(`browser: the loop takes ${least.toFixed(0)} ms: each bound ${times.toFixed(2)} times`);
  return times;
}

// Returns the smallest times of some tries, since other work on the machine takes time too. A try that is quick enough
// is the last one.
async function measured(page, given, soon, keeps) {
  const isShort = given.text.length <= SHORT;
  let least = { all: Infinity, longest: Infinity };
  for (let tries = 0; tries < TRIES; tries++) {
    const { said, ...now } = await typed(page, given);
    least = { said, all: Math.min(least.all, now.all), longest: Math.min(least.longest, now.longest) };
    if (least.all < soon && (!isShort || least.longest < keeps)) break;
  }
  return { ...least, isShort };
}

async function measure(page) {
  const times = await slowness(page);
  const [soon, keeps] = [SOON * times, KEPT * times];
  for (const [what, given] of TEXTS) {
    const { all, longest, said, isShort } = await measured(page, given, soon, keeps);
    console.log(`browser: ${what}: ${all.toFixed(0)} ms, ${longest ? `kept for ${longest.toFixed(0)}` : "never kept"}`);
    checks.equal(`${what}: its status`, said, "Exit status 0");
    checks.equal(`${what}: whether it is shown in a second`, all < soon, true);
    if (isShort) checks.equal(`${what}: whether it keeps what is typed`, longest < keeps, true);
  }
}

// Takes pictures of each example with its answer.
async function draw(page) {
  for (const at of SAID.keys()) {
    await choose(page, at);
    for (const [name, width] of [["wide", 1200], ["narrow", 400]]) {
      for (const scheme of ["light", "dark"]) {
        await page.picture(join(pictures, `${at + 1}-${name}-${scheme}.png`), width, scheme);
      }
    }
  }
}

// Opens the page until its first answer comes in a second, since other work on the machine takes time too.
async function first(page) {
  let least = Infinity;
  for (let tries = 0; tries < TRIES && least >= SOON; tries++) {
    await page.load(pathToFileURL(file).href);
    await page.until('performance.getEntriesByName("answered").length > 0');
    least = Math.min(least, await page.value('performance.getEntriesByName("answered")[0].startTime'));
  }
  console.log(`browser: ${await page.version()}: the first answer takes ${least.toFixed(0)} ms`);
  checks.equal("whether the first answer takes a second", least < SOON, true);
}

// Checks that the page answers in a browser.
async function used(page) {
  await first(page);
  for (const at of SAID.keys()) await choose(page, at);
  for (const test of [pictured, lit, folded, drawn, entered, dropped, stopped, shared, compare]) await test(page);
}

// Checks that the browser requested only the page, and that it complains of nothing. Firefox doesn't report requests
// for files.
async function left(page) {
  await wait(100);
  const addresses = page.addresses().filter((it) => !/^(about|blob|data):/.test(it));
  checks.equal("what is loaded", addresses.filter((it) => !/^file:.*\.html(#.*)?$/.test(it)).join(" "), "");
  checks.equal("what the browser complains of", JSON.stringify(page.complaints()), "[]");
  await page.close();
}

async function inChromium(page) {
  await page.open(file);
  await used(page);
  await measure(page);
  if (pictures) await draw(page);
  await trapped(page);
  await left(page);
}

async function inFirefox(page) {
  await page.open(file);
  await used(page);
  await trapped(page);
  await left(page);
}

// Runs the test in one browser. If it stops early or takes too long, that is a failure with its name.
async function tested(name, page, test) {
  let late;
  const never = new Promise((_, no) => {
    late = setTimeout(() => no(new Error(`it isn't over after ${LONGEST / 1000} seconds`)), LONGEST);
  });
  try {
    await Promise.race([test(page), never]);
  } catch (fault) {
    checks.stopped(name, fault);
    await page.kill();
  }
  clearTimeout(late);
}

const leftOut = (name, why) => console.log(`browser: the page in ${name}: left out: ${why}`);
const [chromium, firefox] = [found(CHROMIUM), found(FIREFOX)];
if (!chromium) leftOut("Chromium", `there is no command ${CHROMIUM[0]}`);
else await tested("Chromium", new Chromium(chromium), inChromium);
if (!firefox) leftOut("Firefox", `there is no command ${FIREFOX[0]}`);
else if (!globalThis.WebSocket) leftOut("Firefox", "this node has no WebSocket");
else await tested("Firefox", new Firefox(firefox), inFirefox);
checks.end(chromium || (firefox && globalThis.WebSocket) ? 1 : 0);
