// Pictures, in place of the word that stands for each.

function showImages() {
  const [images, leads] = [new Map(), new Map()];
  for (const it of takenItems("ul.pictures").flat()) {
    const { part, embed, image } = it.dataset;
    if (embed !== undefined) leads.set(part + "\n" + embed, image);
    else if (!images.has(image)) images.set(image, it.firstElementChild);
  }
  if (!images.size) return;
  for (const story of main.querySelectorAll(":scope > [data-part]"))
    for (const it of story.querySelectorAll(".picture[data-embed]")) {
      const image = images.get(leads.get(story.dataset.part + "\n" + it.dataset.embed));
      if (image) showImage(it, image.cloneNode());
    }
}

// What the word says of a picture is its text. Where it can't be shown the word comes back.
function showImage(picture, image) {
  const word = picture.firstChild;
  if (!word || word.nodeType !== Node.TEXT_NODE) return;
  image.alt = image.title = word.data.replace(/^picture(: )?/, "") || "picture";
  image.addEventListener("error", () => {
    image.replaceWith(word);
    picture.classList.remove("seen");
  });
  word.replaceWith(image);
  picture.classList.add("seen");
}
