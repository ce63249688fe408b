// A port of Web Serial as a line.
import { waiting } from './clock.mjs';
import { Garbled } from './session.mjs';

/** The bits of a character with its guard time (ISO/IEC 7816-3, clause 11.2). */
const BITS = 12;
/** Room for more than the longest burst that comes before a page reads. */
const BUFFER = 4096;
/** Errors of Web Serial after which a port goes on: the receiver found a character damaged, or lost some. */
const DAMAGED = ['ParityError', 'FramingError', 'BreakError', 'BufferOverrunError'];

/**
 * A port of Web Serial as a line of an AsyncSession. `late` is by how many microseconds an octet may reach the program
 * later than the one before it: it is added to each wait.
 */
export class WebSerialLine {
    #port;
    #baudRate;
    #reader = null;

    constructor(port, { baudRate = 9600, late = 20000 } = {}) {
        this.#port = port;
        this.#baudRate = baudRate;
        this.late = late;
    }

    /** Opens a port with eight data bits, even parity and two stop bits, and makes a line of it. */
    static async open(port, { baudRate = 9600, late, ...options } = {}) {
        await port.open({ baudRate, dataBits: 8, parity: 'even', stopBits: 2, bufferSize: BUFFER, ...options });
        return new WebSerialLine(port, { baudRate, late });
    }

    /**
     * Sends octets. Closing the stream has the port send all of them. No driver has them on the line sooner than the
     * bit rate permits, so the call doesn't return before that time.
     */
    async write(octets) {
        if (!this.#port.writable) throw new Error('the port is closed or gone');
        const sent = waiting(octets.length * BITS * 1e6 / this.#baudRate);
        const writer = this.#port.writable.getWriter();
        try {
            await writer.write(octets);
            await writer.close();
            await sent.over;
        } finally {
            sent.cancel();
            writer.releaseLock();
        }
    }

    /**
     * Waits for octets without limit. A damaged character is one octet 00 that is garbled, since the port doesn't hand
     * it over. Returns null once the port is closed or gone.
     */
    async read() {
        if (!this.#port.readable) return null;
        this.#reader ??= this.#port.readable.getReader();
        try {
            const { value, done } = await this.#reader.read();
            if (done) this.#release();
            return done ? null : value;
        } catch (error) {
            this.#release();
            if (DAMAGED.includes(error.name)) return Garbled.of(0);
            throw error;
        }
    }

    #release() {
        this.#reader?.releaseLock();
        this.#reader = null;
    }

    /** Ends a read that waits, and closes the port. */
    async close() {
        await this.#reader?.cancel().catch(() => {});
        this.#release();
        await this.#port.close();
    }
}
