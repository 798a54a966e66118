// ZIP archives: the directory as the zipfile module of Python reads and writes it, and pako for what is in them.
"use strict";

const zip = (() => {
  const LOCAL = 0x04034b50;
  const CENTRAL = 0x02014b50;
  const END = 0x06054b50;
  const END_64 = 0x06064b50;
  const LOCATOR_64 = 0x07064b50;
  const IS_UTF8 = 0x800;
  const IN_EXTRA = 0xffffffff;
  // More than the program reads, and little enough for a machine's memory.
  const LIMIT = 256 * 1024 * 1024;
  // The names of old archives: the characters of code page 437 from 128 on.
  const CODE_PAGE =
    "ÇüéâäàåçêëèïîìÄÅÉæÆôöòûùÿÖÜ¢£¥₧ƒáíóúñÑªº¿⌐¬½¼¡«»░▒▓│┤╡╢╖╕╣║╗╝╜╛┐└┴┬├─┼╞╟╚╔╩╦╠═╬╧╨╤╥╙╘╒╓╫╪┘┌█▄▌▐▀αßΓπΣσµτΦΘΩδ∞φε∩≡±≥≤⌠⌡÷≈°∙·√ⁿ²■\u00a0";

  /** @param {string} why @returns {never} */
  const wrong = (why) => {
    throw new NotOfTheForm("it is no ZIP package (" + why + ")");
  };
  const viewOf = (/** @type {Uint8Array} */ bytes) => new DataView(bytes.buffer, bytes.byteOffset, bytes.byteLength);

  const CHECKSUMS = new Uint32Array(256).map((_, n) => {
    for (let i = 0; i < 8; i++) n = n & 1 ? (n >>> 1) ^ 0xedb88320 : n >>> 1;
    return n;
  });
  /** @param {Uint8Array} bytes */
  function checksum(bytes) {
    let sum = -1;
    for (let i = 0; i < bytes.length; i++) sum = (sum >>> 8) ^ CHECKSUMS[(sum ^ bytes[i]) & 255];
    return ~sum >>> 0;
  }

  /** @param {Uint8Array[]} pieces */
  function joined(pieces) {
    const all = new Uint8Array(pieces.reduce((sum, it) => sum + it.length, 0));
    let at = 0;
    for (const it of pieces) {
      all.set(it, at);
      at += it.length;
    }
    return all;
  }

  // Reading

  /** Where the record at the end of an archive is. @param {DataView} view */
  function endOf(view) {
    const last = view.byteLength - 22;
    const isEnd = (at) => at >= 0 && view.getUint32(at, true) === END;
    if (isEnd(last) && view.getUint16(last + 20, true) === 0) return last;
    // a comment of at most 65,535 bytes may follow it
    let at = view.byteLength - 4;
    while (at >= Math.max(last - 65536, 0) && !isEnd(at)) at--;
    return isEnd(at) && at >= last - 65536 && at <= last ? at : wrong("File is not a zip file");
  }

  /** Where the directory begins, its size, and how far the archive's own places are off. @param {DataView} view */
  function directoryOf(view) {
    const end = endOf(view);
    const isLarge = end >= 20 && view.getUint32(end - 20, true) === LOCATOR_64;
    if (isLarge && (view.getUint32(end - 16, true) !== 0 || view.getUint32(end - 4, true) > 1)) wrong("zipfiles that span multiple disks are not supported");
    const record = isLarge ? Math.max(end - 76, 0) : 0;
    const isRecord = isLarge && record + 56 <= view.byteLength && view.getUint32(record, true) === END_64;
    const size = isRecord ? view.getBigUint64(record + 40, true) : BigInt(view.getUint32(end + 12, true));
    const told = isRecord ? view.getBigUint64(record + 48, true) : BigInt(view.getUint32(end + 16, true));
    // what is before the archive counts in no place
    const begin = BigInt(end) - size - (isRecord ? 76n : 0n);
    if (begin < 0n) wrong("Bad offset for central directory");
    return { begin: Number(begin), size: Number(size), shift: begin - told };
  }

  /** @param {Uint8Array} raw @param {number} flags */
  function nameOf(raw, flags) {
    if (!(flags & IS_UTF8)) return Array.from(raw, (it) => (it < 128 ? String.fromCharCode(it) : CODE_PAGE[it - 128])).join("");
    try {
      return new TextDecoder("utf-8", { fatal: true, ignoreBOM: true }).decode(raw);
    } catch {
      return wrong("a name is not UTF-8");
    }
  }

  /** Takes the sizes and the place of an entry from its extra fields, where they are kept there. */
  function readExtra(extra, entry) {
    const view = viewOf(extra);
    for (let at = 0; at + 4 <= extra.length; ) {
      const end = at + 4 + view.getUint16(at + 2, true);
      if (end > extra.length) wrong("Corrupt extra field");
      if (view.getUint16(at, true) === 1) {
        let from = at + 4;
        for (const field of ["whole", "packed", "place"]) {
          if (entry[field] !== IN_EXTRA) continue;
          if (from + 8 > end) wrong("Corrupt zip64 extra field");
          entry[field] = Number(view.getBigUint64(from, true));
          from += 8;
        }
      }
      at = end;
    }
  }

  /** The entries of the directory. @param {Uint8Array} data */
  function entriesOf(data) {
    const { begin, size, shift } = directoryOf(viewOf(data));
    const directory = data.subarray(begin, begin + size);
    const view = viewOf(directory);
    const entries = [];
    for (let at = 0; at < size; ) {
      if (at + 46 > size) wrong("Truncated central directory");
      if (view.getUint32(at, true) !== CENTRAL) wrong("Bad magic number for central directory");
      if (view.getUint8(at + 6) > 63) wrong("zip file version " + (view.getUint8(at + 6) / 10).toFixed(1));
      const [flags, method] = [view.getUint16(at + 8, true), view.getUint16(at + 10, true)];
      const [sum, packed, whole, place] = [16, 20, 24, 42].map((it) => view.getUint32(at + it, true));
      const [name, extra, comment] = [28, 30, 32].map((it) => view.getUint16(at + it, true));
      const entry = { name: nameOf(directory.subarray(at + 46, at + 46 + name), flags), flags, method, sum, packed, whole, place };
      readExtra(directory.subarray(at + 46 + name, at + 46 + name + extra), entry);
      entry.place = Number(BigInt(entry.place) + shift);
      entries.push(entry);
      at += 46 + name + extra + comment;
    }
    return entries;
  }

  /** The packed bytes of an entry. @param {Uint8Array} data */
  function packedOf(data, { name, flags, packed, place }) {
    const view = viewOf(data);
    if (place < 0) wrong("negative seek value");
    if (place + 30 > data.length) wrong("Truncated file header");
    if (view.getUint32(place, true) !== LOCAL) wrong("Bad magic number for file header");
    const [nameSize, extraSize] = [view.getUint16(place + 26, true), view.getUint16(place + 28, true)];
    if (flags & 0x20) wrong("compressed patched data (flag bit 5)");
    if (flags & 0x40) wrong("strong encryption (flag bit 6)");
    const here = nameOf(data.subarray(place + 30, place + 30 + nameSize), view.getUint16(place + 6, true));
    if (here !== name) wrong("File name in directory and header differ");
    if (flags & 1) wrong("a part is encrypted, password required");
    const begin = place + 30 + nameSize + extraSize;
    return begin + packed <= data.length ? data.subarray(begin, begin + packed) : wrong("a part is cut off");
  }

  /** What packed bytes unpack to, of which only `whole` are taken. @param {Uint8Array} packed @param {number} whole */
  function inflated(packed, whole) {
    const inflate = new pako.Inflate({ raw: true });
    const pieces = [];
    let size = 0;
    inflate.onData = (/** @type {Uint8Array} */ piece) => {
      size += piece.length;
      if (size > whole) wrong("a part unpacks to more than it says");
      pieces.push(piece);
    };
    inflate.push(packed, true);
    if (inflate.err) wrong("Error " + inflate.err + " while decompressing data: " + inflate.msg);
    if (!inflate.ended || inflate.strm.avail_in) wrong("a part is damaged");
    return joined(pieces);
  }

  /** @param {Uint8Array} data */
  function contentOf(data, entry) {
    const packed = packedOf(data, entry);
    if (entry.method !== 0 && entry.method !== 8) wrong("That compression method is not supported");
    const content = entry.method === 8 ? inflated(packed, entry.whole) : packed;
    if (content.length !== entry.whole || checksum(content) !== entry.sum) wrong("Bad CRC-32 for file '" + entry.name + "'");
    return content;
  }

  /** The files of an archive by name, in its order. @param {Uint8Array} data @returns {Map<string, Uint8Array>} */
  function read(data) {
    const entries = entriesOf(data);
    // (a name ends at its first 0, whatever follows)
    const nameHere = (entry) => entry.name.split("\0")[0];
    if (!entries.every(nameHere)) wrong("a part has no name");
    const files = entries.filter((it) => !nameHere(it).endsWith("/"));
    if (files.reduce((sum, it) => sum + it.whole, 0) > LIMIT) throw new NotOfTheForm("it unpacks to more than " + LIMIT + " bytes");
    const items = new Map(files.map((it) => [nameHere(it), contentOf(data, it)]));
    const names = Array.from(items.keys());
    if (new Set(names.map((it) => it.toLowerCase())).size < files.length) throw new NotOfTheForm("two of its parts have one name");
    if (names.some((it) => /[\x00-\x1f\ud800-\udfff\ufffe\uffff]/u.test(it))) throw new NotOfTheForm("one of its parts has a name with a control character");
    return items;
  }

  // Writing

  /** Numbers of 2, 4 and 8 bytes, one after the other. @param {[number, number][]} fields */
  function fieldsOf(...fields) {
    const bytes = new Uint8Array(fields.reduce((sum, [size]) => sum + size, 0));
    let at = 0;
    for (const [size, value] of fields) {
      for (let i = 0; i < size; i++) bytes[at + i] = Math.floor(value / 2 ** (8 * i)) % 256;
      at += size;
    }
    return bytes;
  }

  /** The directory's end; one of more than 65,535 files has a larger record before it. */
  function tailOf(count, size, place) {
    const [few, short, long] = [Math.min(count, 0xffff), Math.min(size, IN_EXTRA), Math.min(place, IN_EXTRA)];
    const end = fieldsOf([4, END], [4, 0], [2, few], [2, few], [4, short], [4, long], [2, 0]);
    if (count <= 0xffff) return end;
    const record = fieldsOf([4, END_64], [8, 44], [2, 45], [2, 45], [8, 0], [8, count], [8, count], [8, size], [8, place]);
    return joined([record, fieldsOf([4, LOCATOR_64], [4, 0], [8, place + size], [4, 1]), end]);
  }

  /** An archive of these files, with one date for all. @param {[string, Uint8Array][]} files */
  function write(files) {
    const [pieces, directory] = [[], []];
    let place = 0;
    for (const [name, content] of files) {
      const raw = new TextEncoder().encode(name);
      const packed = pako.deflateRaw(content);
      const flags = raw.every((it) => it < 128) ? 0 : IS_UTF8;
      const common = fieldsOf([2, 20], [2, flags], [2, 8], [2, 0], [2, 0x21], [4, checksum(content)], [4, packed.length], [4, content.length], [2, raw.length], [2, 0]);
      const local = [fieldsOf([4, LOCAL]), common, raw, packed];
      pieces.push(...local);
      directory.push(fieldsOf([4, CENTRAL], [2, 0x314]), common, fieldsOf([2, 0], [2, 0], [2, 0], [4, 0o600 * 65536], [4, place]), raw);
      place += local.reduce((sum, it) => sum + it.length, 0);
    }
    const list = joined(directory);
    return joined([...pieces, list, tailOf(files.length, list.length, place)]);
  }

  return { read, write, joined };
})();
