// Help: all that a reviewer has to know, behind the key ?.

const KEYS = [
  ["j", "go to the next change"], ["k", "go back"],
  ["a", "accept the change that is chosen"], ["r", "reject it"], ["w", "withdraw your earlier word on it"],
  ["n", "the next change that you haven't decided"], ["d", "the next disputed one"], ["o", "the next where others differ from you"],
  ["e", "open or close an edit of several changes"], ["u", "undo"], ["/", "search"], ["?", "this help"],
];
const HELP = [
  ["What you see", "What someone inserted is underlined, what someone deleted is struck through, each in the colour of its author. A \u00b6 is the end of a paragraph that was inserted or deleted: accept a deleted one, and the two paragraphs become one. Moved text is underlined or struck through twice. A bar at the edge stands for a change of format, or for a row of a table: a full bar for an inserted row, a dashed one for a deleted row. The number before a paragraph is that of its clause, in each view."],
  ["Comments", "A small sign such as c1 stands where a comment is: press it to read the comment and the answers to it, and what it is on is tinted. Comments on a change stand in its row too, and comments that are nowhere in the text are at the end. The sign of a note leads to the note, and back."],
  ["Decide", "Choose a change, in the document or in the list, and accept or reject it. The same key or button again takes your word away. A change that you leave alone is left to the others. A locked change can't be decided here. After a decision the next undecided change is chosen; \"Go on by itself\" under \"Filter\" switches that off."],
  ["Edits", "Changes that were one act, such as a replaced word or a deleted row, are one row with one decision. \"7 changes\" in it, or the key e, shows them one by one. A decision on the row is for all of them that aren't decided. \"Edits as one row\" under \"Filter\" switches that off. Everything is counted by single changes."],
  ["Withdraw", "Takes back what you said in an earlier round. It is there only where the page knows of an earlier word of yours: in the journals with which it was made, or in one that you saved or opened here."],
  ["Many at once", "Filter by author, kind or state, or search. \"Accept these 12\" accepts what the filter leaves at that moment. Before another word of yours is replaced you are asked. \"Undo\" takes back one step after the other."],
  ["Views", "With marks you see what was inserted and deleted. \"final\" shows the text that is written once the rest is accepted: what the journals and you decided is done, and what is open or disputed is tinted. \"original\" shows the rest as rejected."],
  ["Your name", "Use the same name each time: it is how your journals are told from those of others. Where a name is nearly one that the document knows, you are asked which one you mean."],
  ["Save and send", "\"Save my journal\" first shows what you decided, what goes against another reviewer, and what you changed. Then your browser puts the file into its folder for downloads. Send this file back. You may save again: the later journal counts above the former one."],
  ["Take a break", "This browser keeps what you decided, for this document and your name. When the page is opened again it says what it found, and asks. Two windows of this page share their words. What is kept isn't on another computer, in a private window, or where the browser's data were cleared, and in some browsers not where the file was moved or renamed. Then use \"Open my journal\" with the file that you saved last."],
  ["Who can change it", "Nothing goes over the network. But any page that is opened from this computer's disk can read and change what the browser keeps, so look at the summary before you save."],
];

function showHelp() {
  if (document.querySelector("dialog[open]")) return;
  ask("Help", [
    make("dl", { className: "help-keys" }, ...KEYS.map(([key, text]) =>
      make("div", {}, make("dt", {}, make("kbd", { textContent: key })), make("dd", { textContent: text })))),
    paragraph("With the Shift key, N, D and O go back."),
    ...HELP.flatMap(([name, text]) => [make("h3", { textContent: name }), paragraph(text)]),
  ], [["", "Close"]], true);
}
