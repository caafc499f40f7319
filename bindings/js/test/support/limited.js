/** A module whose memory may not grow beyond a limit. */

const MEMORY_SECTION = 5;
const HAS_GREATEST_SIZE = 1;

/** Reads a number of WebAssembly (LEB128) at a place, and returns it with the place behind it. */
function readNumber(bytes, place) {
    let number = 0;
    for (let shift = 0; ; shift += 7) {
        const byte = bytes[place++];
        number |= (byte & 127) << shift;
        if (byte < 128) return [number, place];
    }
}

function written(number) {
    const bytes = [];
    for (; number > 127; number >>>= 7) bytes.push((number & 127) | 128);
    return [...bytes, number];
}

/** Returns the size of a module's memory at its start, and its bytes with that of the greatest size, in pages of 64 KiB. */
export function limited(bytes, morePages) {
    for (let place = 8; place < bytes.length;) {
        const [size, begin] = readNumber(bytes, place + 1);
        if (bytes[place] === MEMORY_SECTION) {
            const [count, flags] = bytes.subarray(begin);
            const [pages, end] = readNumber(bytes, begin + 2);
            if (count !== 1 || end !== begin + size) throw new Error("the memory is in a form that isn't known");
            const section = [1, flags | HAS_GREATEST_SIZE, ...written(pages), ...written(pages + morePages)];
            return Buffer.concat([bytes.subarray(0, place), Uint8Array.of(MEMORY_SECTION, ...written(section.length), ...section), bytes.subarray(end)]);
        }
        place = begin + size;
    }
    throw new Error("the module has no memory");
}
