// Shared by the pages in both browsers: numbered calls of the browser's tools, their answers, and the events between
// them.
import { rmSync } from "node:fs";

export class Remote {
  constructor() {
    [this.number, this.asked, this.seen] = [0, new Map(), []];
  }

  // Handles a message of the browser: the answer to a call, or an event.
  take({ id, error, result, method, params, message = error?.message }) {
    if (!this.asked.has(id)) {
      this.seen.push({ method, params });
      return;
    }
    const { yes, no } = this.asked.get(id);
    this.asked.delete(id);
    if (error) no(new Error(message));
    else yes(result);
  }

  // Ends a browser whose test stopped early. Its own processes end soon after it.
  async kill() {
    this.browser.kill("SIGKILL");
    await wait(1000);
    rmSync(this.profile, { recursive: true, force: true, maxRetries: 20 });
  }

  // Handles the end of the browser, or its failure to start.
  end(fault) {
    for (const { no } of this.asked.values()) no(fault);
    this.asked.clear();
  }

  // Sends a call, with its number, and waits for its answer.
  sent(call, send) {
    const message = { id: ++this.number, ...call };
    const answer = new Promise((yes, no) => this.asked.set(message.id, { yes, no }));
    send(JSON.stringify(message));
    return answer;
  }

  // Waits until an expression of the page is true.
  async until(expression) {
    for (let times = 0; times < 500; times++) {
      if (await this.value(expression)) return;
      await wait(10);
    }
    throw new Error(`this never came: ${expression}`);
  }
}

export const wait = (milliseconds) => new Promise((yes) => setTimeout(yes, milliseconds));
