// Says of each picture whether the browser takes it, what of it lies outside, and what each pixel of its crop looks like.

const COLOURS = { 0: [255, 255, 255], 1: [0, 0, 0], 2: [170, 204, 255], 3: [17, 51, 102] };

// White, black, read white, read black; or x for any other colour.
function kind(rgba) {
  const near = (colour) => colour.every((value, i) => Math.abs(value - rgba[i]) <= 8);
  const found = Object.keys(COLOURS).find((key) => near(COLOURS[key]));
  return found === undefined ? "x" : found;
}

// What is drawn or written beyond the picture's edges.
function outside(svg) {
  const edge = svg.getBoundingClientRect();
  const beyond = (part) => {
    const box = part.getBoundingClientRect();
    return box.left < edge.left || box.top < edge.top || box.right > edge.right || box.bottom > edge.bottom;
  };
  const parts = [...svg.querySelectorAll("text, circle, polygon, line, path.pixels, path.read")];
  return parts.filter(beyond).map((part) => part.outerHTML.slice(0, 80));
}

// The picture's pixels, painted without the records, which would cover some.
async function painted(svg) {
  const bare = svg.cloneNode(true);
  bare.querySelectorAll(".record").forEach((record) => record.remove());
  const image = new Image();
  image.src = "data:image/svg+xml," + encodeURIComponent(new XMLSerializer().serializeToString(bare));
  await image.decode();
  const canvas = document.createElement("canvas");
  [canvas.width, canvas.height] = [image.naturalWidth, image.naturalHeight];
  const context = canvas.getContext("2d");
  context.drawImage(image, 0, 0);
  const all = context.getImageData(0, 0, canvas.width, canvas.height).data;
  return (x, y) => all.subarray(4 * (y * canvas.width + x));
}

// The kind of each pixel of the crop, row by row.
async function rows(svg) {
  const page = svg.querySelector(".page");
  const [width, height] = ["width", "height"].map((name) => Number(page.getAttribute(name)));
  const [at, edge, colour] = [svg.getScreenCTM(), svg.getBoundingClientRect(), await painted(svg)];
  let kinds = "";
  for (let y = 0; y < height; y++) {
    for (let x = 0; x < width; x++) {
      const middle = new DOMPoint(x + 0.5, y + 0.5).matrixTransform(at);
      kinds += kind(colour(Math.floor(middle.x - edge.left), Math.floor(middle.y - edge.top)));
    }
  }
  return kinds;
}

async function look(source) {
  const parsed = new DOMParser().parseFromString(source, "image/svg+xml");
  if (parsed.querySelector("parsererror")) return "broken";
  const svg = document.body.appendChild(document.importNode(parsed.documentElement, true));
  const beyond = outside(svg);
  return beyond.length ? "outside " + beyond.join(" ") : "whole " + (await rows(svg));
}

(async () => {
  const said = [];
  for (const source of document.querySelectorAll("script.picture")) {
    said.push(await look(source.textContent).catch((error) => "failed " + error));
  }
  document.body.replaceChildren();
  document.body.dataset.said = said.join("|");
})();
