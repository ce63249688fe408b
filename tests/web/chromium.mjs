// A page in headless Chromium, over the browser's own pipe for tools. It needs nothing from npm, and opens no port.
import { spawn } from "node:child_process";
import { mkdtempSync, rmSync, writeFileSync } from "node:fs";
import { tmpdir } from "node:os";
import { join } from "node:path";
import { pathToFileURL } from "node:url";
import { Remote, wait } from "./remote.mjs";

const WORDS = ["--headless=new", "--remote-debugging-pipe", "--no-first-run", "--disable-gpu", "--disable-extensions",
  "--disable-background-networking", "--disable-dev-shm-usage"];

const KEYS = { Tab: 9, Enter: 13, ArrowDown: 40 };

export class Page extends Remote {
  // Starts a browser. Only root runs Chromium without its sandbox.
  constructor(chromium) {
    super();
    this.profile = mkdtempSync(join(tmpdir(), "scard-chromium-"));
    const root = process.getuid() === 0 ? ["--no-sandbox"] : [];
    const words = [...WORDS, ...root, `--user-data-dir=${this.profile}`];
    this.browser = spawn(chromium, words, { stdio: ["ignore", "ignore", "ignore", "pipe", "pipe"] });
    this.left = "";
    this.browser.on("error", (fault) => this.end(fault));
    this.browser.on("exit", () => this.end(new Error("the browser ended")));
    this.browser.stdio[4].setEncoding("utf8").on("data", (text) => this.read(text));
  }

  // Opens a file in it.
  async open(file) {
    const { targetId } = await this.call("Target.createTarget", { url: "about:blank" });
    const { sessionId } = await this.call("Target.attachToTarget", { targetId, flatten: true });
    this.session = sessionId;
    for (const domain of ["Page", "Runtime", "Log", "Network"]) await this.call(`${domain}.enable`);
    await this.load(pathToFileURL(file).href);
  }

  // Messages end with a zero character.
  read(text) {
    const messages = (this.left + text).split("\0");
    this.left = messages.pop();
    for (const message of messages) this.take(JSON.parse(message));
  }

  call(method, params = {}) {
    return this.sent({ method, params, sessionId: this.session }, (text) => this.browser.stdio[3].write(`${text}\0`));
  }

  // Loads an address, and waits until it is loaded.
  async load(url) {
    const before = this.seen.length;
    await this.call("Page.navigate", { url });
    while (!this.seen.slice(before).some(({ method }) => method === "Page.loadEventFired")) await wait(10);
  }

  // Returns the value of an expression in the page's own world.
  async value(expression) {
    const how = { expression, awaitPromise: true, returnByValue: true };
    const { result, exceptionDetails } = await this.call("Runtime.evaluate", how);
    if (exceptionDetails) throw new Error(exceptionDetails.exception?.description ?? exceptionDetails.text);
    return result.value;
  }

  // Moves the pointer to a place of the window.
  async point(x, y) {
    await this.call("Input.dispatchMouseEvent", { type: "mouseMoved", x, y });
  }

  // Presses a key, by its name.
  async press(key) {
    const text = key === "Enter" ? { text: "\r" } : {};
    for (const type of ["keyDown", "keyUp"]) {
      await this.call("Input.dispatchKeyEvent", { type, key, code: key, windowsVirtualKeyCode: KEYS[key], ...text });
    }
  }

  async version() {
    return (await this.call("Browser.getVersion")).product;
  }

  // Returns the addresses that the page requested.
  addresses() {
    const asked = this.seen.filter(({ method }) => method === "Network.requestWillBeSent");
    return asked.map(({ params }) => params.request.url);
  }

  complaints() {
    return this.seen.filter(({ method }) => ["Log.entryAdded", "Runtime.exceptionThrown"].includes(method));
  }

  // Writes a picture of the whole page to a file.
  async picture(file, width, scheme) {
    const features = [{ name: "prefers-color-scheme", value: scheme }];
    await this.call("Emulation.setEmulatedMedia", { features });
    await this.call("Emulation.setDeviceMetricsOverride", { width, height: 900, deviceScaleFactor: 1, mobile: false });
    const { data } = await this.call("Page.captureScreenshot", { captureBeyondViewport: true });
    writeFileSync(file, Buffer.from(data, "base64"));
  }

  async close() {
    const ended = new Promise((yes) => this.browser.on("exit", yes));
    this.call("Browser.close").catch(() => {});
    await ended;
    rmSync(this.profile, { recursive: true, force: true, maxRetries: 5 });
  }
}
