// The contrast of each text that is seen with what is under it, as WCAG 2 measures it. `contrasts` runs inside of the page.

// The texts whose contrast is less than WCAG AA wants: 4.5, or 3 where they are large; and how many were measured.
export function contrasts() {
  const parsed = text => {
    const numbers = (text.match(/[\d.]+/g) || []).map(Number);
    return numbers.length < 3 ? [0, 0, 0, 0] : [numbers[0], numbers[1], numbers[2], numbers.length > 3 ? numbers[3] : 1];
  };
  const over = ([r, g, b, a], under) => [r * a + under[0] * (1 - a), g * a + under[1] * (1 - a), b * a + under[2] * (1 - a), 1];
  const light = colour => {
    const [r, g, b] = colour.map(it => it / 255).map(it => it <= 0.04045 ? it / 12.92 : ((it + 0.055) / 1.055) ** 2.4);
    return 0.2126 * r + 0.7152 * g + 0.0722 * b;
  };
  const ground = element => {
    const layers = [];
    for (let it = element; it; it = it.parentElement) layers.push(parsed(getComputedStyle(it).backgroundColor));
    return layers.reverse().reduce((under, layer) => over(layer, under), [255, 255, 255, 1]);
  };
  // What a text of a drawing lies on: a badge, a packet, an arc, or the sheet.
  const under = element => {
    const sheet = ground(element.closest("svg").parentElement), shape = element.matches(".port-number") ? null
      : element.matches(".badge-said, .parcel-said") ? element.previousElementSibling : element.parentElement.matches(".token") ? element.parentElement.querySelector("circle") : null;
    if (element.matches(".port-number")) return [...document.querySelectorAll("#circle .arc")].map(arc => parsed(getComputedStyle(arc).stroke));
    return [shape ? over(parsed(getComputedStyle(shape).fill), sheet) : sheet];
  };
  const bad = [];
  let measured = 0;
  for (const element of document.querySelectorAll("body *")) {
    const isText = [...element.childNodes].some(node => node.nodeType === 3 && node.textContent.trim() !== "") || (element.matches("input, textarea") && element.value !== "");
    const look = getComputedStyle(element), box = element.getBoundingClientRect();
    if (!isText || box.width === 0 || box.height === 0 || look.visibility === "hidden" || element.closest("[disabled], [hidden], script, style, title, option, noscript, datalist, .stale")) continue;
    let opacity = 1;
    for (let it = element; it; it = it.parentElement) opacity *= Number(getComputedStyle(it).opacity);
    if (opacity === 0) continue;
    const isDrawn = element instanceof SVGElement, size = parseFloat(look.fontSize), isLarge = size >= 24 || (size >= 18.66 && Number(look.fontWeight) >= 700);
    for (const back of isDrawn ? under(element) : [ground(element)]) {
      const [r, g, b, a] = parsed(isDrawn ? look.fill : look.color), front = over([r, g, b, a * opacity], back), [high, low] = [light(front), light(back)].sort((x, y) => y - x);
      const contrast = (high + 0.05) / (low + 0.05);
      measured += 1;
      if (contrast < (isLarge ? 3 : 4.5)) bad.push(`${element.tagName}.${element.getAttribute("class") || element.id} '${element.textContent.slice(0, 20)}' ${contrast.toFixed(2)}`);
    }
  }
  return { bad: [...new Set(bad)].slice(0, 12), measured };
}
