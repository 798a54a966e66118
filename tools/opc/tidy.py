"""Parts without what stands in the way: changes of paragraphs' properties out of place, and notes that no reference names."""
from opc.xml import NotOfTheForm, counted, end_of, is_word, parse, parser_of, word_attribute


def tidied(data):
    """The bytes of a part with each pPrChange of a paragraph's properties behind their rPr and sectPr, and how many moved."""
    moves, path = [], []

    def start(name, attributes):
        path.append((name, parser.CurrentByteIndex, []))

    def end(_):
        name, begin, kids = path.pop()
        if path and is_word(path[-1][0], "pPr") and is_word(name, "pPrChange", "rPr", "sectPr"):
            path[-1][2].append((name.rpartition(" ")[2], begin, end_of(data, begin, parser.CurrentByteIndex)))
        if is_word(name, "pPr") and not any(is_word(above, "pPrChange") for above, _, _ in path):
            changes = [kid for kid in kids if kid[0] == "pPrChange"]
            if len(changes) == 1 and kids[-1] != changes[0]:
                moves.append((changes[0][1], changes[0][2], kids[-1][2]))

    parser = parser_of(data, "it")
    parser.StartElementHandler, parser.EndElementHandler = start, end
    parse(parser, data, "it")
    out, at = [], 0
    for begin, behind, to in moves:
        out += [data[at:begin], data[behind:to], data[begin:behind]]
        at = to
    return b"".join(out + [data[at:]]), len(moves)


def without_unused_notes(parts, say):
    """The parts without the footnotes and endnotes that no reference in any part names."""
    try:
        used = {note: ids_of(parts, note + "Reference") for note in ("footnote", "endnote")}
    except NotOfTheForm as error:
        say("all notes are kept: %s" % error)
        return parts
    kept = []
    for name, content_type, data in parts:
        for note in used:
            if content_type.endswith(".%ss+xml" % note):
                data, count = without_notes(data, note, used[note])
                if count:
                    say("%s: left out %s that no reference names" % (name, counted(count, note)))
        kept.append((name, content_type, data))
    return kept


def ids_of(parts, local):
    """The ids that elements of this name have in all XML parts."""
    ids = set()

    def element(name, attributes):
        if is_word(name, local):
            ids.add(word_attribute(attributes, "id"))

    for name, content_type, data in parts:
        if content_type.endswith("+xml"):
            parser = parser_of(data, name)
            parser.StartElementHandler = element
            parse(parser, data, name)
    return ids


def without_notes(data, note, used):
    """The bytes of a part of notes without those whose id isn't used, and how many these are. Separators are no notes."""
    cuts, path = [], []

    def start(name, attributes):
        kind = word_attribute(attributes, "type") or "normal"
        unused = is_word(name, note) and kind == "normal" and word_attribute(attributes, "id") not in used
        path.append(parser.CurrentByteIndex if unused and len(path) == 1 else None)

    def end(_):
        begin = path.pop()
        if begin is not None:
            cuts.append((begin, end_of(data, begin, parser.CurrentByteIndex)))

    parser = parser_of(data, "it")
    parser.StartElementHandler, parser.EndElementHandler = start, end
    parse(parser, data, "it")
    out, at = [], 0
    for begin, behind in cuts:
        out.append(data[at:begin])
        at = behind
    return b"".join(out + [data[at:]]), len(cuts)
