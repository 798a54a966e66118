// Reading XML as flatopc does: UTF-8 with namespaces and without a document type, by the same rules as its parser.
"use strict";

/** What a file lacks of a .docx, or of a package in one XML file. */
class NotOfTheForm extends Error {}

const xml = (() => {
  const SPACE = "http://www.w3.org/XML/1998/namespace";
  const SPACE_OF_SPACES = "http://www.w3.org/2000/xmlns/";
  // The characters beyond ASCII that a name may begin with, and those that only its rest may have (XML 1.0, fourth edition,
  // Appendix B).
  const LETTERS =
    "c0-d6 d8-f6 f8-131 134-13e 141-148 14a-17e 180-1c3 1cd-1f0 1f4-1f5 1fa-217 250-2a8 2bb-2c1 386 388-38a 38c 38e-3a1 " +
    "3a3-3ce 3d0-3d6 3da 3dc 3de 3e0 3e2-3f3 401-40c 40e-44f 451-45c 45e-481 490-4c4 4c7-4c8 4cb-4cc 4d0-4eb 4ee-4f5 " +
    "4f8-4f9 531-556 559 561-586 5d0-5ea 5f0-5f2 621-63a 641-64a 671-6b7 6ba-6be 6c0-6ce 6d0-6d3 6d5 6e5-6e6 905-939 93d " +
    "958-961 985-98c 98f-990 993-9a8 9aa-9b0 9b2 9b6-9b9 9dc-9dd 9df-9e1 9f0-9f1 a05-a0a a0f-a10 a13-a28 a2a-a30 a32-a33 " +
    "a35-a36 a38-a39 a59-a5c a5e a72-a74 a85-a8b a8d a8f-a91 a93-aa8 aaa-ab0 ab2-ab3 ab5-ab9 abd ae0 b05-b0c b0f-b10 " +
    "b13-b28 b2a-b30 b32-b33 b36-b39 b3d b5c-b5d b5f-b61 b85-b8a b8e-b90 b92-b95 b99-b9a b9c b9e-b9f ba3-ba4 ba8-baa bae- " +
    "bb5 bb7-bb9 c05-c0c c0e-c10 c12-c28 c2a-c33 c35-c39 c60-c61 c85-c8c c8e-c90 c92-ca8 caa-cb3 cb5-cb9 cde ce0-ce1 " +
    "d05-d0c d0e-d10 d12-d28 d2a-d39 d60-d61 e01-e2e e30 e32-e33 e40-e45 e81-e82 e84 e87-e88 e8a e8d e94-e97 e99-e9f " +
    "ea1-ea3 ea5 ea7 eaa-eab ead-eae eb0 eb2-eb3 ebd ec0-ec4 f40-f47 f49-f69 10a0-10c5 10d0-10f6 1100 1102-1103 1105-1107 " +
    "1109 110b-110c 110e-1112 113c 113e 1140 114c 114e 1150 1154-1155 1159 115f-1161 1163 1165 1167 1169 116d-116e " +
    "1172-1173 1175 119e 11a8 11ab 11ae-11af 11b7-11b8 11ba 11bc-11c2 11eb 11f0 11f9 1e00-1e9b 1ea0-1ef9 1f00-1f15 " +
    "1f18-1f1d 1f20-1f45 1f48-1f4d 1f50-1f57 1f59 1f5b 1f5d 1f5f-1f7d 1f80-1fb4 1fb6-1fbc 1fbe 1fc2-1fc4 1fc6-1fcc " +
    "1fd0-1fd3 1fd6-1fdb 1fe0-1fec 1ff2-1ff4 1ff6-1ffc 2126 212a-212b 212e 2180-2182 3007 3021-3029 3041-3094 30a1-30fa " +
    "3105-312c 4e00-9fa5 ac00-d7a3";
  const MARKS =
    "b7 2d0-2d1 300-345 360-361 387 483-486 591-5a1 5a3-5b9 5bb-5bd 5bf 5c1-5c2 5c4 640 64b-652 660-669 670 6d6-6e4 6e7-6e8 " +
    "6ea-6ed 6f0-6f9 901-903 93c 93e-94d 951-954 962-963 966-96f 981-983 9bc 9be-9c4 9c7-9c8 9cb-9cd 9d7 9e2-9e3 9e6-9ef " +
    "a02 a3c a3e-a42 a47-a48 a4b-a4d a66-a71 a81-a83 abc abe-ac5 ac7-ac9 acb-acd ae6-aef b01-b03 b3c b3e-b43 b47-b48 " +
    "b4b-b4d b56-b57 b66-b6f b82-b83 bbe-bc2 bc6-bc8 bca-bcd bd7 be7-bef c01-c03 c3e-c44 c46-c48 c4a-c4d c55-c56 c66-c6f " +
    "c82-c83 cbe-cc4 cc6-cc8 cca-ccd cd5-cd6 ce6-cef d02-d03 d3e-d43 d46-d48 d4a-d4d d57 d66-d6f e31 e34-e3a e46-e4e " +
    "e50-e59 eb1 eb4-eb9 ebb-ebc ec6 ec8-ecd ed0-ed9 f18-f19 f20-f29 f35 f37 f39 f3e-f3f f71-f84 f86-f8b f90-f95 f97 " +
    "f99-fad fb1-fb7 fb9 20d0-20dc 20e1 3005 302a-302f 3031-3035 3099-309a 309d-309e 30fc-30fe";
  const classOf = (ranges) => ranges.split(" ").map((it) => it.replace(/[0-9a-f]+/g, (code) => "\\u" + code.padStart(4, "0"))).join("");
  const EXACT_NAME = new RegExp("^[A-Za-z_" + classOf(LETTERS) + "][-A-Za-z_0-9." + classOf(LETTERS) + classOf(MARKS) + "]*$", "u");

  /** Bytes as a text with one character for each: ASCII as it is, and another character for each other byte. @param {Uint8Array} bytes */
  const plain = (bytes) => new TextDecoder("latin1").decode(bytes);
  const BYTE_OF = new Map(Array.from(plain(Uint8Array.from({ length: 128 }, (_, i) => 128 + i)), (it, i) => [it, 128 + i]));
  /** The bytes of such a text. @param {string} text */
  const bytesOf = (text) => Uint8Array.from(Array.from(text, (it) => BYTE_OF.get(it) ?? it.charCodeAt(0)));
  const encoded = (/** @type {string} */ text) => new TextEncoder().encode(text);
  const isAscii = (/** @type {string} */ text) => !/[^\x00-\x7f]/.test(text);
  /** What such a text says. @param {string} text */
  const decoded = (text) => (isAscii(text) ? text : new TextDecoder().decode(bytesOf(text)));

  const S = "[ \\t\\r\\n]";
  const NAME = "[A-Za-z_\\u0080-\\uffff][-A-Za-z_0-9.\\u0080-\\uffff]*";
  const QUALIFIED = NAME + "(?::" + NAME + ")?";
  const TAG_NAME = new RegExp("<(" + QUALIFIED + ")", "y");
  const ATTRIBUTE = new RegExp(S + "+(" + QUALIFIED + ")" + S + "*=" + S + "*(?:\"([^\"<]*)\"|'([^'<]*)')", "y");
  const TAG_END = new RegExp(S + "*(/?)>", "y");
  const END_TAG = new RegExp("</([^> \\t\\r\\n]+)" + S + "*>", "y");
  const INSTRUCTION = new RegExp("<\\?(" + NAME + ")(?:" + S + "|(?=\\?>))", "y");
  const VERSION = S + "+version" + S + "*=" + S + "*(?:\"[-\\w.]*\"|'[-\\w.]*')";
  const ENCODING = "(?:" + S + "+encoding" + S + "*=" + S + "*(?:\"[A-Za-z][-\\w.]*\"|'[A-Za-z][-\\w.]*'))?";
  const STANDALONE = "(?:" + S + "+standalone" + S + "*=" + S + "*(?:\"(?:yes|no)\"|'(?:yes|no)'))?";
  const DECLARATION = new RegExp("<\\?xml" + VERSION + ENCODING + STANDALONE + S + "*\\?>", "y");
  const REFERENCE = /&(?:(amp|lt|gt|quot|apos)|#([0-9]+)|#x([0-9a-fA-F]+));/y;
  const MEANS = { amp: "&", lt: "<", gt: ">", quot: '"', apos: "'" };

  const isCharacter = (c) => c === 9 || c === 10 || c === 13 || (c >= 32 && c <= 0xd7ff) || (c >= 0xe000 && c <= 0xfffd) || (c >= 0x10000 && c <= 0x10ffff);

  /** The match of a sticky pattern at a place, or null. @param {RegExp} pattern @param {string} text @param {number} at */
  function match(pattern, text, at) {
    pattern.lastIndex = at;
    return pattern.exec(text);
  }

  /** Refuses bytes that are no text of characters that XML has. */
  function checkCharacters(bytes, text, refuse) {
    const decoder = new TextDecoder("utf-8", { fatal: true });
    try {
      for (let at = 0; at < bytes.length; at += 1 << 20) decoder.decode(bytes.subarray(at, at + (1 << 20)), { stream: true });
      decoder.decode();
    } catch {
      refuse("not UTF-8");
    }
    if (/[\x00-\x08\x0b\x0c\x0e-\x1f]|\u00ef\u00bf[\u00be\u00bf]/.test(text)) refuse("a character that XML does not have");
  }

  /** The value of an attribute that was read, whose characters each are a byte. @param {string} raw */
  function valueOf(raw) {
    const text = decoded(raw).replace(/\r\n|[\t\n\r]/g, " ");
    return text.replace(/&(\w+|#\d+|#x[0-9a-fA-F]+);/g, (_, name) =>
      name[0] !== "#" ? MEANS[name] : String.fromCodePoint(name[1] === "x" ? parseInt(name.slice(2), 16) : parseInt(name.slice(1), 10)),
    );
  }

  /** The values of attributes by their names without the space. @param {[string, string][]} attributes @returns {Record<string, string>} */
  const valuesOf = (attributes) => Object.fromEntries(attributes.map(([name, value]) => [name.slice(name.lastIndexOf(" ") + 1), valueOf(value)]));

  /**
   * @typedef {[name: string, value: string][]} Attributes names "SPACE LOCAL" or "LOCAL", and values as they stand there
   * @typedef {(name: string, attributes: Attributes, depth: number, begin: number, end: number) => void} OnStart
   * @typedef {(name: string, depth: number, begin: number, end: number) => void} OnEnd
   */

  /** Goes over a text from its begin to its end, and tells each start tag and each end tag with its place. */
  class Scanner {
    /** @param {Uint8Array} bytes @param {string} what @param {OnStart} start @param {OnEnd} end */
    constructor(bytes, what, start, end) {
      this.what = what;
      this.bytes = bytes;
      this.start = start;
      this.end = end;
      this.text = plain(bytes);
      /** The open elements: the name as it stands there, the whole one, and the spaces outside. */
      this.path = [];
      this.hasRoot = false;
      /** What each prefix stands for. */
      this.spaces = Object.assign(Object.create(null), { "": "", xml: SPACE });
      /** Start tags that were read, by their text. */
      this.known = new Map();
    }

    /** @param {string} why @returns {never} */
    refuse(why) {
      throw new NotOfTheForm(this.what + " is not XML: " + why);
    }

    run() {
      checkCharacters(this.bytes, this.text, (why) => this.refuse(why));
      const { text } = this;
      let at = this.head();
      for (;;) {
        const next = text.indexOf("<", at);
        this.between(text.slice(at, next < 0 ? text.length : next));
        if (next < 0) break;
        const second = text[next + 1];
        at = second === "/" ? this.endTag(next) : second === "!" ? this.section(next) : second === "?" ? this.instruction(next) : this.startTag(next);
      }
      if (this.path.length || !this.hasRoot) this.refuse("no element found");
    }

    /** Reads a mark of UTF-8 and a declaration, where they are there. */
    head() {
      const begin = this.text.startsWith("\u00ef\u00bb\u00bf") ? 3 : 0;
      if (!/^<\?xml[ \t\r\n?]/.test(this.text.slice(begin, begin + 6))) return begin;
      if (!match(DECLARATION, this.text, begin)) this.refuse("XML declaration not well-formed");
      return DECLARATION.lastIndex;
    }

    /** Takes the text between two tags. @param {string} text */
    between(text) {
      if (this.path.length ? text.includes("]]>") : /[^ \t\r\n]/.test(text)) this.refuse("a text where none may be");
      this.checkReferences(text);
    }

    checkReferences(text) {
      for (let at = text.indexOf("&"); at >= 0; at = text.indexOf("&", at + 1)) {
        const found = match(REFERENCE, text, at);
        if (!found) this.refuse("undefined entity");
        const code = found[2] ? parseInt(found[2], 10) : found[3] ? parseInt(found[3], 16) : 32;
        if (!isCharacter(code)) this.refuse("reference to invalid character number");
      }
    }

    endTag(at) {
      const found = match(END_TAG, this.text, at);
      const open = this.path.pop();
      if (!found || !open || found[1] !== open.raw) this.refuse("mismatched tag");
      const end = at + found[0].length;
      this.end(open.name, this.path.length + 1, at, end);
      this.spaces = open.outside;
      return end;
    }

    /** Reads a comment or a section of characters. */
    section(at) {
      const { text } = this;
      if (text.startsWith("<!--", at)) {
        const close = text.indexOf("--", at + 4);
        if (close < 0 || text[close + 2] !== ">") this.refuse("a comment without an end");
        return close + 3;
      }
      if (!this.path.length || !text.startsWith("<![CDATA[", at)) {
        if (text.startsWith("<!DOCTYPE", at)) throw new NotOfTheForm(this.what + " has a document type declaration");
        this.refuse("not well-formed");
      }
      const close = text.indexOf("]]>", at + 9);
      if (close < 0) this.refuse("unclosed CDATA section");
      return close + 3;
    }

    instruction(at) {
      const found = match(INSTRUCTION, this.text, at);
      if (!found || /^xml$/i.test(found[1]) || !this.isName(found[1])) this.refuse("not well-formed");
      const close = this.text.indexOf("?>", INSTRUCTION.lastIndex);
      if (close < 0) this.refuse("unclosed token");
      return close + 2;
    }

    /** Whether a name that looks like one is one. @param {string} name */
    isName(name) {
      return isAscii(name) || name.split(":").every((it) => EXACT_NAME.test(decoded(it)));
    }

    startTag(at) {
      const { text } = this;
      if (this.hasRoot && !this.path.length) this.refuse("junk after document element");
      this.hasRoot = true;
      const outside = this.spaces;
      // Most tags were seen before, under the same spaces.
      let tag = this.known.get(text.slice(at, text.indexOf(">", at) + 1));
      if (!tag || tag.outside !== outside) tag = this.readTag(at);
      const end = at + tag.length;
      const depth = this.path.length + 1;
      this.start(tag.name, tag.attributes, depth, at, end);
      if (tag.isEmpty) this.end(tag.name, depth, end, end);
      else {
        this.path.push({ raw: tag.raw, name: tag.name, outside });
        this.spaces = tag.inside;
      }
      return end;
    }

    /** Reads a start tag, and remembers it. */
    readTag(at) {
      const { text } = this;
      const raw = match(TAG_NAME, text, at)?.[1];
      if (!raw || !this.isName(raw)) this.refuse("not well-formed");
      let end = TAG_NAME.lastIndex;
      /** @type {Attributes} */
      const pairs = [];
      for (let found; (found = match(ATTRIBUTE, text, end)); end = ATTRIBUTE.lastIndex) {
        const value = found[2] ?? found[3];
        if (!this.isName(found[1])) this.refuse("not well-formed");
        this.checkReferences(value);
        pairs.push([found[1], value]);
      }
      const close = match(TAG_END, text, end);
      if (!close) this.refuse("not well-formed");
      const length = TAG_END.lastIndex - at;
      const outside = this.spaces;
      const inside = this.declared(pairs);
      const tag = { raw, outside, inside, length, isEmpty: close[1] === "/", name: this.named(raw, inside, inside[""]), attributes: this.attributes(pairs, inside) };
      if (this.known.size < 20000) this.known.set(text.slice(at, at + length), tag);
      return tag;
    }

    /** What each prefix stands for inside an element with these attributes. @param {Attributes} pairs */
    declared(pairs) {
      let spaces = this.spaces;
      for (const [name, value] of pairs) {
        if (name !== "xmlns" && !name.startsWith("xmlns:")) continue;
        const prefix = name.slice(6);
        const space = valueOf(value);
        const isReserved = prefix === "xmlns" || (prefix === "xml") !== (space === SPACE) || space === SPACE_OF_SPACES;
        if (isReserved || (prefix && !space) || space.includes(" ")) this.refuse("a space that may not be declared");
        if (spaces === this.spaces) spaces = Object.create(this.spaces);
        if (Object.hasOwn(spaces, prefix)) this.refuse("duplicate attribute");
        spaces[prefix] = space;
      }
      return spaces;
    }

    /** A name with its space. @param {string} name @param {Record<string, string>} spaces @param {string} ownSpace */
    named(name, spaces, ownSpace) {
      const colon = name.indexOf(":");
      const space = colon < 0 ? ownSpace : spaces[name.slice(0, colon)];
      if (colon >= 0 && !space) this.refuse("unbound prefix");
      return space ? space + " " + decoded(name.slice(colon + 1)) : decoded(name);
    }

    /** The attributes that declare no space. @param {Attributes} pairs @returns {Attributes} */
    attributes(pairs, spaces) {
      const own = pairs.filter(([name]) => name !== "xmlns" && !name.startsWith("xmlns:"));
      /** @type {Attributes} */
      const named = own.map(([name, value]) => [this.named(name, spaces, ""), value]);
      if (new Set(named.map(([name]) => name)).size < named.length) this.refuse("duplicate attribute");
      return named;
    }
  }

  /**
   * Goes over a text, and refuses what is no XML in UTF-8 with namespaces and without a document type. `start` and `end` are told
   * of each element, at which depth it is and where its tag begins and ends; an empty element ends where its tag ends.
   * @param {Uint8Array} bytes
   * @param {string} what
   * @param {OnStart} start
   * @param {OnEnd} end
   */
  function scan(bytes, what, start = () => {}, end = () => {}) {
    const isMarked16 = (bytes[0] === 0xff && bytes[1] === 0xfe) || (bytes[0] === 0xfe && bytes[1] === 0xff);
    if (isMarked16) throw new NotOfTheForm(what + " is not UTF-8");
    new Scanner(bytes, what, start, end).run();
  }

  return { scan, plain, encoded, valuesOf };
})();
