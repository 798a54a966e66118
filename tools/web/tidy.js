// What may be changed in the parts of a document on its way: a pPrChange in the wrong place, and notes that nobody names.
"use strict";

const tidying = (() => {
  // The two names of the space of a document's elements.
  const WORD_SPACES = ["http://schemas.openxmlformats.org/wordprocessingml/2006/main ", "http://purl.oclc.org/ooxml/wordprocessingml/main "];

  const counted = (/** @type {number} */ count, /** @type {string} */ noun) => count + " " + noun + (count === 1 ? "" : "s");
  const localOf = (/** @type {string} */ name) => name.slice(name.lastIndexOf(" ") + 1);

  /** Whether a name is one of these names of a document's elements or attributes. @param {string} name @param {string[]} locals */
  const isWord = (name, ...locals) => WORD_SPACES.some((it) => name.startsWith(it)) && locals.includes(localOf(name));

  /** The value of a document's attribute, or undefined. @param {[string, string][]} attributes @param {string} local */
  function valueOf(attributes, local) {
    const found = attributes.find(([name]) => isWord(name, local));
    return found && xml.valuesOf([found])[local];
  }

  /**
   * The bytes of a part with each pPrChange of a paragraph's properties behind their rPr and sectPr, and how many moved.
   * @param {Uint8Array} data
   * @returns {[Uint8Array, number]}
   */
  function tidied(data) {
    const moves = [];
    const path = [];
    const start = (name, _, __, begin) => path.push({ name, begin, kids: [] });
    const end = (_, __, ___, behind) => {
      const { name, begin, kids } = path.pop();
      const above = path[path.length - 1];
      if (above && isWord(above.name, "pPr") && isWord(name, "pPrChange", "rPr", "sectPr")) above.kids.push({ name: localOf(name), begin, behind });
      if (!isWord(name, "pPr") || path.some((it) => isWord(it.name, "pPrChange"))) return;
      const changes = kids.filter((it) => it.name === "pPrChange");
      const last = kids[kids.length - 1];
      if (changes.length === 1 && last !== changes[0]) moves.push({ ...changes[0], to: last.behind });
    };
    xml.scan(data, "it", start, end);
    const out = [];
    let at = 0;
    for (const { begin, behind, to } of moves) {
      out.push(data.subarray(at, begin), data.subarray(behind, to), data.subarray(begin, behind));
      at = to;
    }
    return [zip.joined([...out, data.subarray(at)]), moves.length];
  }

  /** The ids that elements of this name have in all XML parts. @param {{ name: string, type: string, bytes: Uint8Array }[]} parts */
  function idsOf(parts, local) {
    const ids = new Set();
    for (const { name, type, bytes } of parts) {
      if (!type.endsWith("+xml")) continue;
      xml.scan(bytes, name, (element, attributes) => {
        if (isWord(element, local)) ids.add(valueOf(attributes, "id"));
      });
    }
    return ids;
  }

  /**
   * The bytes of a part of notes without those whose id isn't used, and how many these are. Separators are no notes.
   * @param {Uint8Array} data
   * @param {string} note
   * @param {Set<string | undefined>} used
   * @returns {[Uint8Array, number]}
   */
  function without(data, note, used) {
    const cuts = [];
    const path = [];
    const start = (name, attributes, depth, begin) => {
      const isNote = isWord(name, note) && (valueOf(attributes, "type") || "normal") === "normal";
      path.push(isNote && depth === 2 && !used.has(valueOf(attributes, "id")) ? begin : -1);
    };
    const end = (_, __, ___, behind) => {
      const begin = path.pop();
      if (begin >= 0) cuts.push([begin, behind]);
    };
    xml.scan(data, "it", start, end);
    const ends = [0, ...cuts.map(([, behind]) => behind)];
    const begins = [...cuts.map(([begin]) => begin), data.length];
    return [zip.joined(begins.map((begin, i) => data.subarray(ends[i], begin))), cuts.length];
  }

  /**
   * The parts without the footnotes and endnotes that no reference in any part names.
   * @param {{ name: string, type: string, bytes: Uint8Array }[]} parts
   * @param {(line: string) => void} say
   */
  function withoutUnusedNotes(parts, say) {
    const used = {};
    try {
      for (const note of ["footnote", "endnote"]) used[note] = idsOf(parts, note + "Reference");
    } catch (error) {
      if (!(error instanceof NotOfTheForm)) throw error;
      say("all notes are kept: " + error.message);
      return parts;
    }
    return parts.map((part) => {
      let bytes = part.bytes;
      for (const note in used) {
        if (!part.type.endsWith("." + note + "s+xml")) continue;
        const [left, count] = without(bytes, note, used[note]);
        bytes = left;
        if (count) say(part.name + ": left out " + counted(count, note) + " that no reference names");
      }
      return { ...part, bytes };
    });
  }

  return { tidied, withoutUnusedNotes, counted };
})();
