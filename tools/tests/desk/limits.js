// A module whose memory may not grow as far as it was built for, to try what happens where memory runs out.
"use strict";

function number(bytes, at) {
  let value = 0;
  for (let shift = 0; ; shift += 7, at++) {
    value += (bytes[at] & 0x7f) * 2 ** shift;
    if (bytes[at] < 0x80) return [value, at + 1];
  }
}
const written = (value) => (value < 128 ? [value] : [(value % 128) + 128, ...written(Math.floor(value / 128))]);

/** The module with this number of pages as the most of its one memory. */
function withMostPages(bytes, pages) {
  const MEMORY = 5;
  for (let at = 8; at < bytes.length; ) {
    const [size, begin] = number(bytes, at + 1);
    if (bytes[at] === MEMORY) {
      const [least] = number(bytes, begin + 2);
      const section = [1, 1, ...written(least), ...written(pages)];
      return Buffer.concat([bytes.subarray(0, at), Buffer.from([MEMORY, ...written(section.length), ...section]), bytes.subarray(begin + size)]);
    }
    at = begin + size;
  }
  throw new Error("a module without a memory");
}

module.exports = { withMostPages };
