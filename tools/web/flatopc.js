// Turns a .docx into a package in one XML file and back, as the tool flatopc does: byte for byte the same, in both directions.
"use strict";

const flatopc = (() => {
  const PACKAGE = "http://schemas.microsoft.com/office/2006/xmlPackage";
  const TYPES = "http://schemas.openxmlformats.org/package/2006/content-types";
  const RELATIONSHIPS = "application/vnd.openxmlformats-package.relationships+xml";
  const TYPES_ITEM = "[Content_Types].xml";
  // The declaration that word processors write. Another one, or none, is kept in an instruction before the part's root.
  const DECLARATION = '<?xml version="1.0" encoding="UTF-8" standalone="yes"?>';
  const KEPT = "<?part-declaration";
  const MARK = Uint8Array.of(0xef, 0xbb, 0xbf);

  const { scan, plain, encoded, valuesOf } = xml;
  const { joined } = zip;
  /** @typedef {{ name: string, type: string, bytes: Uint8Array }} Part */

  const startsWith = (/** @type {Uint8Array} */ bytes, /** @type {Uint8Array} */ start) => start.every((it, i) => bytes[i] === it);

  /** Where a text of ASCII begins in bytes, or -1. @param {Uint8Array} bytes @param {string} text */
  function placeOf(bytes, text) {
    const wanted = encoded(text);
    for (let at = bytes.indexOf(wanted[0]); at >= 0; at = bytes.indexOf(wanted[0], at + 1)) if (startsWith(bytes.subarray(at), wanted)) return at;
    return -1;
  }

  /** An attribute's value in quotes. @param {string} text */
  function quoted(text) {
    const references = { "&": "&amp;", ">": "&gt;", "<": "&lt;", "\n": "&#10;", "\r": "&#13;", "\t": "&#9;" };
    text = text.replace(/[&><\n\r\t]/g, (it) => references[it]);
    if (!text.includes('"')) return '"' + text + '"';
    return text.includes("'") ? '"' + text.replaceAll('"', "&quot;") + '"' : "'" + text + "'";
  }

  // From a .docx

  /** What a ZIP file is that is no .docx, and what to do with it. @param {Map<string, Uint8Array>} items */
  function otherArchive(items) {
    const inside = [...items.keys()].find((it) => /\.doc[xm]$/i.test(it));
    const type = items.get("mimetype");
    if (type && startsWith(type, encoded("application/vnd.oasis.opendocument")))
      return "it is an OpenDocument file (.odt); open it in a word processor, and save it as .docx";
    if (inside) return "it is a ZIP file with " + inside.replace(/(?! )[\p{C}\p{Z}]/gu, "?") + " in it; take that out first, and name it";
    return "it is a ZIP file without " + TYPES_ITEM + ", and so no .docx";
  }

  /** The content types of a ZIP package: by extension, and by the name of the part. @param {Uint8Array} bytes */
  function typesOf(bytes) {
    const [byExtension, byName] = [new Map(), new Map()];
    scan(bytes, TYPES_ITEM, (name, attributes) => {
      if (name !== TYPES + " Default" && name !== TYPES + " Override") return;
      const { Extension = "", PartName = "", ContentType = "" } = valuesOf(attributes.filter(([it]) => !it.includes(" ")));
      if (name === TYPES + " Default") byExtension.set(Extension.toLowerCase(), ContentType);
      else byName.set(PartName.toLowerCase(), ContentType);
    });
    return [byExtension, byName];
  }

  /** Whether a part with this declaration is UTF-8: it may say so, nothing, or that all of it is ASCII. @param {string} declaration @param {Uint8Array} bytes */
  function isReadSo(declaration, bytes) {
    const encoding = (declaration.match(/encoding\s*=\s*["']([^"']*)["']/)?.[1] ?? "utf-8").toLowerCase();
    return encoding === "utf-8" || (encoding === "us-ascii" && bytes.every((it) => it < 0x80));
  }

  /** The bytes of an XML part as they can be in a package, in pieces, or null where they can't. @param {Uint8Array} bytes */
  function asXml(bytes) {
    try {
      scan(bytes, "it");
    } catch (error) {
      if (error instanceof NotOfTheForm) return null;
      throw error;
    }
    const begin = startsWith(bytes, MARK) ? MARK.length : 0;
    let words = begin ? "mark" : "none";
    let rest = begin;
    if (/^<\?xml[ \t\r\n]/.test(plain(bytes.subarray(begin, begin + 6)))) {
      rest = begin + placeOf(bytes.subarray(begin), "?>") + 2;
      const declaration = plain(bytes.subarray(begin, rest));
      if (!isReadSo(declaration, bytes)) return null;
      if (!begin && declaration === DECLARATION) return [bytes.subarray(rest)];
      words = words.replace("none", "as") + " " + declaration.slice(5).replace(/[?>]+$/, "");
    }
    return [encoded(KEPT + " " + words + "?>"), bytes.subarray(rest)];
  }

  /** Bytes as Base64 in lines. @param {Uint8Array} bytes */
  function inLines(bytes) {
    const LINES = 57 * 512;
    let text = "";
    for (let at = 0; at < bytes.length; at += LINES) text += btoa(String.fromCharCode(...bytes.subarray(at, at + LINES))).replace(/.{1,76}/g, "$&\r\n");
    return text.slice(0, -2);
  }

  /** The element of a part, in pieces. @param {string} name @param {string} type @param {Uint8Array} part */
  function elementOf(name, type, part, tidy, say) {
    const isXml = type.endsWith("+xml") || type === "application/xml" || type === "text/xml";
    let content = isXml ? asXml(part) : null;
    if (isXml && !content) say(name + " is kept as bytes, since it is not XML in UTF-8 without a document type");
    if (content && tidy) {
      const [tidied, count] = tidying.tidied(part);
      if (count) {
        content = asXml(tidied);
        say(name + ": put pPrChange behind rPr in " + tidying.counted(count, "paragraph"));
      }
    }
    const head = encoded("<pkg:part pkg:name=" + quoted(name) + " pkg:contentType=" + quoted(type));
    if (content) return [head, encoded("><pkg:xmlData>"), ...content, encoded("</pkg:xmlData></pkg:part>")];
    return [head, encoded(' pkg:compression="store"><pkg:binaryData>' + inLines(part) + "</pkg:binaryData></pkg:part>")];
  }

  /**
   * The package of a .docx. What has to be told goes to `say`, a sentence each.
   * @param {Uint8Array} data
   * @param {{ tidy?: boolean, say?: (line: string) => void }} options
   */
  async function unpack(data, { tidy = false, say = () => {} } = {}) {
    const OLD = Uint8Array.of(0xd0, 0xcf, 0x11, 0xe0, 0xa1, 0xb1, 0x1a, 0xe1);
    if (startsWith(data, OLD)) throw new NotOfTheForm("it has a password, or it is of the older form .doc");
    const items = zip.read(data);
    const list = items.get(TYPES_ITEM);
    if (!list) throw new NotOfTheForm(otherArchive(items));
    const [byExtension, byName] = typesOf(list);
    items.delete(TYPES_ITEM);
    const out = [encoded(DECLARATION + '\r\n<?mso-application progid="Word.Document"?>\r\n<pkg:package xmlns:pkg="' + PACKAGE + '">')];
    for (const [item, part] of items) {
      const name = "/" + item;
      const type = byName.get(name.toLowerCase()) || byExtension.get(item.slice(item.lastIndexOf(".") + 1).toLowerCase());
      if (type) out.push(...elementOf(name, type, part, tidy, say));
      else say(name + " has no content type, and so is left out");
    }
    return joined([...out, encoded("</pkg:package>")]);
  }

  // To a .docx

  /** Name, content type and bytes of each part of a package in one XML file. @param {Uint8Array} data @returns {Part[]} */
  function partsOf(data) {
    const parts = [];
    let begin = 0;
    const start = (name, attributes, depth, _, end) => {
      if (depth === 1 && name !== PACKAGE + " package") throw new NotOfTheForm("its root is no package of the Flat OPC form");
      if (depth === 2) {
        const values = valuesOf(attributes);
        const isPart = name === PACKAGE + " part" && (values.name ?? "").startsWith("/") && values.contentType;
        if (!isPart) throw new NotOfTheForm("something in it is no part with a name and a content type");
        parts.push({ name: values.name, type: values.contentType, bytes: null });
      }
      if (depth === 3) begin = end;
    };
    const end = (name, depth, at) => {
      const part = parts[parts.length - 1];
      if (depth === 3) part.bytes = bytesOf(name, data.subarray(begin, at), part.name);
      if (depth === 2 && !part.bytes) throw new NotOfTheForm(part.name + " has no data");
    };
    scan(data, "it", start, end);
    if (new Set(parts.map((it) => it.name.toLowerCase())).size < parts.length) throw new NotOfTheForm("two of its parts have one name");
    return parts;
  }

  /** The bytes of a part, given what is in the element of its data. @param {string} name @param {Uint8Array} inside @param {string} part */
  function bytesOf(name, inside, part) {
    if (name === PACKAGE + " binaryData") {
      const digits = plain(inside).replace(/[ \t\n\r\x0b\x0c]+/g, "");
      if (digits.length % 4 || !/^[A-Za-z0-9+/]*={0,2}$/.test(digits)) throw new NotOfTheForm(part + " has bytes that are not base64");
      return Uint8Array.from(atob(digits), (it) => it.charCodeAt(0));
    }
    if (name !== PACKAGE + " xmlData") throw new NotOfTheForm(part + " has no data");
    const whole = startsWith(inside, encoded(KEPT + " ")) ? withDeclaration(inside) : joined([encoded(DECLARATION), inside]);
    // A prefix that only the package declares is lost with the package.
    try {
      scan(whole, part);
    } catch (error) {
      if (error instanceof NotOfTheForm) throw new NotOfTheForm(part + " can't stand alone: " + error.message);
      throw error;
    }
    return whole;
  }

  /** The bytes of a part whose declaration is kept in an instruction before its root. @param {Uint8Array} inside */
  function withDeclaration(inside) {
    const close = placeOf(inside, "?>");
    const words = inside.subarray(KEPT.length + 1, close);
    const space = words.indexOf(0x20);
    const isMarked = plain(space < 0 ? words : words.subarray(0, space)) === "mark";
    const declaration = space < 0 ? [] : [encoded("<?xml"), words.subarray(space + 1), encoded("?>")];
    return joined([isMarked ? MARK : new Uint8Array(), ...declaration, inside.subarray(close + 2)]);
  }

  /** The list of content types: one for an extension where all its parts have that type, else one for the part. @param {Part[]} parts */
  function listOfTypes(parts) {
    const byExtension = new Map([
      ["rels", RELATIONSHIPS],
      ["xml", "application/xml"],
    ]);
    const lastOf = (name) => name.slice(name.lastIndexOf("/") + 1);
    const extensionOf = (name) => lastOf(name).slice(lastOf(name).lastIndexOf(".") + 1).toLowerCase();
    const hasExtension = (name) => lastOf(name).includes(".");
    for (const { name, type } of parts) {
      if (hasExtension(name) && !type.endsWith("+xml") && !byExtension.has(extensionOf(name))) byExtension.set(extensionOf(name), type);
    }
    const defaults = Array.from(byExtension, ([extension, type]) => "<Default Extension=" + quoted(extension) + " ContentType=" + quoted(type) + "/>");
    const others = parts.filter(({ name, type }) => !hasExtension(name) || byExtension.get(extensionOf(name)) !== type);
    const overrides = others.map(({ name, type }) => "<Override PartName=" + quoted(name) + " ContentType=" + quoted(type) + "/>");
    return encoded(DECLARATION + "\r\n" + ['<Types xmlns="' + TYPES + '">', ...defaults, ...overrides].join("") + "</Types>");
  }

  /**
   * The .docx of a package. What has to be told goes to `say`, a sentence each.
   * @param {Uint8Array} data
   * @param {{ dropUnusedNotes?: boolean, say?: (line: string) => void }} options
   */
  async function pack(data, { dropUnusedNotes = false, say = () => {} } = {}) {
    const parts = dropUnusedNotes ? tidying.withoutUnusedNotes(partsOf(data), say) : partsOf(data);
    return zip.write([[TYPES_ITEM, listOfTypes(parts)], ...parts.map((it) => /** @type {[string, Uint8Array]} */ ([it.name.slice(1), it.bytes]))]);
  }

  return { unpack, pack };
})();
