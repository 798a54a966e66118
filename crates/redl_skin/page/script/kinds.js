const KINDS = {
  ins: "inserted", del: "deleted", move: "moved", "move-from": "moved away", "move-to": "moved here",
  "mark-ins": "paragraph end inserted", "mark-del": "paragraph end deleted",
  "mark-from": "paragraph end moved away", "mark-to": "paragraph end moved here",
  "row-ins": "row inserted", "row-del": "row deleted", "cell-ins": "cell inserted", "cell-del": "cell deleted",
  "run-props": "text formatted", "para-props": "paragraph formatted", "sect-props": "page layout changed",
  "table-props": "table formatted", "except-props": "table format of a row changed", "row-props": "row formatted",
  "cell-props": "cell formatted",
};
// What the program says of a change of format that a reader doesn't see.
const LANGUAGE = "language only";
