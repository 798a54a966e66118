"""The papers' pictures, which are made by the tests: whether they show what is seen now."""
import base64
import os
import shutil
import subprocess

from page_seen import TOP, told

# How far two pictures differ in the middle of their squares of 16 points, from 0 to 255; 255 where their sizes differ.
DIFFERENCE = """
const [one, other, done] = arguments;
const drawn = async (data) => {
  const it = new Image();
  it.src = "data:image/png;base64," + data;
  await it.decode();
  const canvas = new OffscreenCanvas(it.width / 16, it.height / 16).getContext("2d");
  canvas.imageSmoothingQuality = "high";
  canvas.drawImage(it, 0, 0, canvas.canvas.width, canvas.canvas.height);
  return [it.width, it.height, canvas.getImageData(0, 0, canvas.canvas.width, canvas.canvas.height).data];
};
Promise.all([drawn(one), drawn(other)]).then(([[width, height, its], [otherWidth, otherHeight, others]]) => {
  const isSame = width === otherWidth && height === otherHeight;
  done(isSame ? its.reduce((sum, it, at) => sum + Math.abs(it - others[at]), 0) / its.length : 255);
});
"""
MOST = 3


def has_fonts():
    """Whether the fonts of the papers' pictures are here."""
    if not shutil.which("fc-match"):
        return False
    match = lambda name: subprocess.run(["fc-match", "-f", "%{family}", name], capture_output=True, check=False).stdout.decode()
    return all(name in match(name) for name in ("Liberation Sans", "Liberation Serif"))


def base64_of(file):
    with open(file, "rb") as it:
        return base64.b64encode(it.read()).decode()


def is_of_now(driven, name, made):
    """Tells whether the picture of this name in docs/ shows what the picture `made` does."""
    if not has_fonts():
        return print("skipped %sdocs/%s: the fonts of the pictures aren't here" % (told.browser, name))
    blank = os.path.join(driven.folder, "blank.html")
    with open(blank, "w", encoding="utf-8") as out:
        out.write("<!DOCTYPE html>")
    driven.open(blank)
    differs = driven.run_async(DIFFERENCE, base64_of(os.path.join(TOP, "docs", name)), base64_of(made))
    told("docs/%s shows what is seen now" % name, differs <= MOST, "it differs by %.1f: make it anew, by --picture" % differs)
