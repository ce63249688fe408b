// The counts of the tests of the page, and what they print.
export class Checks {
  // Prints at most this many of the failed checks.
  constructor(name, shown = Infinity) {
    Object.assign(this, { name, shown, passed: 0, failed: 0 });
  }

  equal(what, have, want) {
    if (have === want) this.passed++;
    else if (++this.failed <= this.shown) {
      console.log(`${this.name}: ${what}: it says ${JSON.stringify(have)} and not ${JSON.stringify(want)}`);
    }
  }

  // Counts a test that stopped early as a failure.
  stopped(what, fault) {
    this.failed++;
    console.log(`${this.name}: ${what}: the test stopped early: ${fault.message}`);
  }

  // Prints the last line. It is a failure too if fewer than `least` checks passed.
  end(least = 1) {
    console.log(`${this.passed} passed, ${this.failed} failed`);
    process.exitCode = this.failed || this.passed < least ? 1 : 0;
  }
}
