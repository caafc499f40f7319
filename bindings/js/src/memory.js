/** The module's memory. An address is a number of 32 bits, which comes with a sign. */
import { OutOfMemoryError } from "./errors.js";

/** The greatest number that the module's addresses and counts have room for. */
export const MOST = 2 ** 32 - 1;

/**
 * The blocks of memory that one call borrows. A block never moves, but memory that grows gets another buffer: a view of
 * it serves until the next block is taken or the library is called.
 */
class Loan {
    #exports;
    #blocks = [];

    constructor(exports) {
        this.#exports = exports;
    }

    /** Takes a block. Its address is aligned to 16 and not null, even of 0 bytes. */
    take(bytes) {
        const address = bytes <= MOST && this.#exports.i_shape_take(bytes);
        if (!address) throw new OutOfMemoryError();
        this.#blocks.push(address);
        return address;
    }

    #view(Items, address, length) {
        return new Items(this.#exports.memory.buffer, address >>> 0, length);
    }

    /** Takes a block for points, of so many coordinates, and copies them there. If there are more by then, that throws. */
    copy(points, { Points }, length) {
        const address = this.take(length * Points.BYTES_PER_ELEMENT);
        this.#view(Points, address, length).set(points);
        return address;
    }

    /** Takes a block for offsets, and writes them there. In place of one above `MOST` it writes that, which is above each count too. */
    copyOffsets(offsets) {
        const address = this.take(Uint32Array.BYTES_PER_ELEMENT * offsets.length);
        const copy = this.#view(Uint32Array, address, offsets.length);
        for (let k = 0; k < offsets.length; k++) copy[k] = Math.min(offsets[k], MOST);
        return address;
    }

    /** Returns a copy of the items at an address. */
    read(Items, address, length) {
        return this.#view(Items, address, length).slice();
    }

    end() {
        for (const address of this.#blocks) this.#exports.i_shape_give(address);
    }
}

/** Returns what `use` returns of a loan, which ends then, whatever `use` throws. */
export function borrow(exports, use) {
    const loan = new Loan(exports);
    try {
        return use(loan);
    } finally {
        loan.end();
    }
}
