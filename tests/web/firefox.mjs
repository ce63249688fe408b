// A page in headless Firefox, over WebDriver BiDi. It needs nothing from npm. Its port is open to this machine only.
import { spawn } from "node:child_process";
import { mkdtempSync, rmSync } from "node:fs";
import { tmpdir } from "node:os";
import { join } from "node:path";
import { pathToFileURL } from "node:url";
import { Remote } from "./remote.mjs";

const HERE = /WebDriver BiDi listening on (ws:\S+)/;
const EVENTS = ["log.entryAdded", "network.beforeRequestSent"];

const KEYS = { Tab: "\uE004", Enter: "\uE007", ArrowDown: "\uE015" };

export class Page extends Remote {
  // Starts a browser.
  constructor(firefox) {
    super();
    this.profile = mkdtempSync(join(tmpdir(), "scard-firefox-"));
    const words = ["--headless", "--no-remote", "--remote-debugging-port=0", "--profile", this.profile];
    this.browser = spawn(firefox, words, { stdio: ["ignore", "ignore", "pipe"] });
    this.ended = new Promise((yes) => this.browser.on("exit", yes));
  }

  // Opens a file in a new window of it, which has the focus.
  async open(file) {
    await this.connected();
    const { capabilities } = await this.call("session.new", { capabilities: {} });
    this.capabilities = capabilities;
    const { context } = await this.call("browsingContext.create", { type: "window" });
    this.context = context;
    await this.call("session.subscribe", { events: EVENTS });
    await this.load(pathToFileURL(file).href);
  }

  // Loads an address, and waits until it is loaded.
  async load(url) {
    await this.call("browsingContext.navigate", { context: this.context, url, wait: "complete" });
  }

  // Waits until the browser has printed the address of its tools, and connects to them.
  async connected() {
    const address = await new Promise((yes, no) => {
      let said = "";
      this.browser.on("error", no);
      this.browser.on("exit", () => no(new Error("the browser ended")));
      this.browser.stderr.setEncoding("utf8").on("data", (text) => {
        said += text;
        if (HERE.test(said)) yes(HERE.exec(said)[1]);
      });
    });
    this.socket = new WebSocket(`${address}/session`);
    this.socket.onmessage = ({ data }) => this.take(JSON.parse(data));
    this.socket.onclose = () => this.end(new Error("the browser ended"));
    await new Promise((yes, no) => Object.assign(this.socket, { onopen: yes, onerror: no }));
  }

  call(method, params) {
    return this.sent({ method, params }, (text) => this.socket.send(text));
  }

  // Returns the value of an expression in the page's own world.
  async value(expression) {
    const target = { context: this.context };
    const text = `Promise.resolve(${expression}).then((it) => JSON.stringify(it))`;
    const how = { expression: text, target, awaitPromise: true };
    const { type, result, exceptionDetails } = await this.call("script.evaluate", how);
    if (type === "exception") throw new Error(exceptionDetails.text);
    return result.value === undefined ? undefined : JSON.parse(result.value);
  }

  // Moves the pointer to a place of the window.
  async point(x, y) {
    await this.acts({ type: "pointer", id: "pointer", actions: [{ type: "pointerMove", x, y }] });
  }

  // Presses a key, by its name.
  async press(key) {
    const actions = ["keyDown", "keyUp"].map((type) => ({ type, value: KEYS[key] }));
    await this.acts({ type: "key", id: "keys", actions });
  }

  async acts(...actions) {
    await this.call("input.performActions", { context: this.context, actions });
  }

  async version() {
    return `${this.capabilities.browserName} ${this.capabilities.browserVersion}`;
  }

  // Returns the addresses that the page requested.
  addresses() {
    const asked = this.seen.filter(({ method }) => method === "network.beforeRequestSent");
    return asked.map(({ params }) => params.request.url);
  }

  complaints() {
    return this.seen.filter(({ method }) => method === "log.entryAdded");
  }

  async close() {
    if (this.socket) this.call("browser.close", {}).catch(() => {});
    else this.browser.kill();
    await this.ended;
    rmSync(this.profile, { recursive: true, force: true, maxRetries: 5 });
  }
}
