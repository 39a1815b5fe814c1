// A picture of the page painted on a canvas, for PNG and GIF.
import { gifOf } from "./gif.js";

// The opacity of an element with that of the groups that it is in; `known` has those of groups.
function opacityOf(element, root, known) {
  if (element === root) return 1;
  if (!known.has(element)) known.set(element, Number(getComputedStyle(element).opacity) * opacityOf(element.parentElement, root, known));
  return known.get(element);
}

function paintShape(context, element, look) {
  const number = name => Number(element.getAttribute(name) || 0), shape = new Path2D(element.tagName === "path" ? element.getAttribute("d") : undefined);
  if (element.tagName === "circle") shape.arc(number("cx"), number("cy"), number("r") || parseFloat(look.r) || 0, 0, 2 * Math.PI);
  if (element.tagName === "line") {
    shape.moveTo(number("x1"), number("y1"));
    shape.lineTo(number("x2"), number("y2"));
  }
  if (look.fill !== "none" && element.tagName !== "line") context.fill(shape);
  if (look.stroke !== "none") context.stroke(shape);
}

function paintText(context, element, look) {
  const x = Number(element.getAttribute("x") || 0), y = Number(element.getAttribute("y") || 0);
  context.font = `${look.fontStyle} ${look.fontWeight} ${look.fontSize} ${look.fontFamily}`;
  context.textAlign = { middle: "center", end: "right" }[look.textAnchor] || "left";
  context.lineJoin = "round";
  if (look.stroke !== "none" && look.paintOrder.startsWith("stroke")) context.strokeText(element.textContent, x, y);
  context.fillText(element.textContent, x, y);
}

// Paints a drawing as it is seen.
function paint(context, svg, scale) {
  const known = new Map();
  for (const element of svg.querySelectorAll("line, circle, path, text")) {
    if (element.matches(".catch, .hover") || element.parentElement.style.display === "none") continue;
    const look = getComputedStyle(element), opacity = opacityOf(element, svg, known), matrix = element.getCTM();
    if (look.display === "none" || opacity === 0 || !matrix) continue;
    context.setTransform(scale * matrix.a, scale * matrix.b, scale * matrix.c, scale * matrix.d, scale * matrix.e, scale * matrix.f);
    Object.assign(context, { fillStyle: look.fill === "none" ? "transparent" : look.fill, strokeStyle: look.stroke === "none" ? "transparent" : look.stroke, lineWidth: parseFloat(look.strokeWidth), lineCap: look.strokeLinecap });
    context.globalAlpha = opacity * Number(look.strokeOpacity);
    context.setLineDash(look.strokeDasharray === "none" ? [] : look.strokeDasharray.split(/[ ,]+/).map(parseFloat));
    if (element.tagName === "text") paintText(context, element, look);
    else paintShape(context, element, look);
  }
}

// Words broken into lines that are no wider than `most`.
function linesOf(context, text, most) {
  const lines = [""];
  for (const word of text.split(/\s+/)) {
    const longer = lines.at(-1) + (lines.at(-1) === "" ? "" : " ") + word;
    if (context.measureText(longer).width <= most || lines.at(-1) === "") lines[lines.length - 1] = longer;
    else lines.push(word);
  }
  return lines;
}

// A canvas of a drawing at a width, with room for captions above it.
export function paintedOn(svg, width, captions = null, high = 0) {
  const canvas = document.createElement("canvas"), scale = width / svg.clientWidth, page = getComputedStyle(document.documentElement), context = canvas.getContext("2d", { willReadFrequently: true });
  canvas.width = width;
  canvas.height = Math.round(svg.clientHeight * scale) + high;
  context.fillStyle = page.getPropertyValue("--back").trim();
  context.fillRect(0, 0, canvas.width, canvas.height);
  const plain = document.createElement("canvas");
  plain.width = width;
  plain.height = canvas.height - high;
  paint(plain.getContext("2d"), svg, scale);
  context.drawImage(plain, 0, high);
  context.fillStyle = page.getPropertyValue("--ink").trim();
  let y = 24;
  for (const { text, font } of captions || []) {
    context.font = font;
    for (const line of linesOf(context, text, width - 28)) {
      context.fillText(line, 14, y);
      y += 21;
    }
  }
  return canvas;
}

export function pngOf(svg, width) {
  return new Promise(done => paintedOn(svg, width).toBlob(done, "image/png"));
}

// A GIF of pictures that `show(i)` makes the page show: { svg, width, captions, high, delay } of each.
export async function filmOf(count, show) {
  const frames = [];
  let width = 0, height = 0;
  for (let i = 0; i < count; i++) {
    const { svg, width: wanted, captions, high, delay } = show(i), canvas = paintedOn(svg, wanted, captions, high);
    ({ width, height } = canvas);
    frames.push({ pixels: canvas.getContext("2d").getImageData(0, 0, width, height).data, delay });
    if (i % 4 === 3) await new Promise(done => setTimeout(done, 0));
  }
  return new Blob([gifOf(frames, width, height)], { type: "image/gif" });
}
