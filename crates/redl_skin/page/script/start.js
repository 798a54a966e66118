// What is heard, and how the page begins.

for (const select of [authors, kinds, states]) select.addEventListener("change", filter);
acceptAll.addEventListener("click", () => decideShown("accept"));
rejectAll.addEventListener("click", () => decideShown("reject"));
undo.addEventListener("click", takeBack);
person.addEventListener("change", rename);
save.addEventListener("click", saveJournal);
help.addEventListener("click", showHelp);
openButton.addEventListener("click", () => file.click());
file.addEventListener("change", async () => {
  if (file.files[0]) await openFile(file.files[0]);
  file.value = "";
});
document.addEventListener("dragover", (event) => event.preventDefault());
document.addEventListener("drop", (event) => {
  event.preventDefault();
  if (event.dataTransfer.files[0]) openFile(event.dataTransfer.files[0]);
});
together.addEventListener("change", () => {
  store("redline setting together", together.checked ? "yes" : "no");
  showAnew();
});
advance.addEventListener("change", () => store("redline setting advance", advance.checked ? "yes" : "no"));
addEventListener("storage", hearStore);
addEventListener("pagehide", () => waiting && keep());
addEventListener("beforeprint", sayPrinted);
for (const kind of ["beforeprint", "copy"]) addEventListener(kind, seeAll);

function begin() {
  build();
  arrange();
  document.body.dataset.view = "marks";
  watchRows();
  advance.checked = stored("redline setting advance") !== "no";
  together.checked = stored("redline setting together") !== "no";
  offerNames();
  filter();
  changed();
  askOnOpening().then(() => (isAnswered = true));
}

if (isCopy) tellCopy();
else begin();
