// A document of a few lines in node: what the page's script uses of a browser, with its worker.
import { readFileSync } from "node:fs";
import vm from "node:vm";

// The part of an element that the script uses.
class Element {
  constructor(tag = "") {
    Object.assign(this, { tag, inside: [], handlers: {}, hidden: false, disabled: false });
    Object.assign(this, { own: "", value: "", checked: false });
  }
  append(...parts) {
    this.inside.push(...parts);
    if (this.tag === "select") this.value ||= this.inside[0].value;
  }
  replaceChildren(...parts) { this.inside = parts; }
  setAttribute(name, value) { this[name] = value; }
  removeAttribute(name) { delete this[name]; }
  addEventListener(name, handler) { this.handlers[name] = handler; }
  set textContent(text) { [this.own, this.inside] = [text, []]; }
  get textContent() { return this.own + this.inside.map((it) => it.textContent ?? it).join(""); }
  // This element and all below it.
  every() { return [this, ...this.inside.flatMap((it) => it.every?.() ?? [])]; }
}

// A file whose octets a worker can read at once, as FileReaderSync does.
export class File {
  constructor(octets, name = "file") { Object.assign(this, { octets, name, size: octets.length }); }
  slice(from, to) { return new File(this.octets.slice(from, to)); }
}

// A worker in a world of its own. A message arrives later, and none does after its end.
function workers(script) {
  return class {
    constructor() {
      const postMessage = (data) => setImmediate(() => this.isEnded || this.onmessage({ data }));
      const FileReaderSync = class { readAsArrayBuffer(it) { return it.octets.slice().buffer; } };
      this.world = vm.createContext({ postMessage, FileReaderSync, performance, WebAssembly, atob, Blob, Response,
        DecompressionStream, TextEncoder, BigInt });
      vm.runInContext(script(), this.world);
    }
    postMessage(data) { setImmediate(() => this.isEnded || this.world.onmessage({ data })); }
    terminate() { this.isEnded = true; }
  };
}

// The page of a file in such a document. `exports` are names of its script.
export function opened(text, exports) {
  const tags = [...text.matchAll(/<(\w+)[^>]*? id="([^"]+)"/g)];
  const parts = Object.fromEntries(tags.map(([, tag, id]) => [id, new Element(tag)]));
  for (const id of ["module", "worker", "table"]) {
    parts[id].textContent = text.match(`id="${id}">([\\s\\S]*?)</script>`)[1];
  }
  const buttons = [...text.matchAll(/<button type="button"\s+(data-[^>]*)>/g)];
  const examples = buttons.map(([, given]) => Object.fromEntries([...given.matchAll(/data-(\w+)="([^"]*)"/g)]
    .map(([, name, value]) => [name, value.replaceAll("&#10;", "\n")])));
  parts.examples.querySelector = () => ({ dataset: examples[0] });
  const [location, handlers] = [{ hash: "" }, {}];
  // an element that the script made is in another one
  const find = (id) => parts[id] ?? parts.picture.every().find((it) => it.id === id);
  const worker = () => parts.worker.textContent;
  const urls = [];
  const url = { createObjectURL: (it) => `blob:${urls.push(it)}`, revokeObjectURL() {} };
  const on = (name, handler) => { handlers[name] = handler; };
  const world = vm.createContext({ performance, setTimeout, clearTimeout, URLSearchParams, URL: url, Blob,
    Worker: workers(worker), location, history: { replaceState: (_, __, address) => { location.hash = address; } },
    document: { getElementById: find, createElement: (tag) => new Element(tag), addEventListener: on },
    addEventListener: on });
  vm.runInContext(`${text.match(/<script>([\s\S]*)<\/script>/)[1]}\nglobalThis.own = { ${exports} };`, world);
  return { own: world.own, find, examples, location, handlers, urls };
}

export const read = (file) => readFileSync(file, "utf8");
