// The least contrast of a text to what it stands on. Rows stand on the boxes of their lane, which are not their parents; a
// hatched box counts with each of its colours.
const parse = text => {
  const numbers = text.match(/[\d.]+/g).map(Number);
  return { rgb: numbers.slice(0, 3), alpha: numbers.length > 3 ? numbers[3] : 1 };
};
const colours = style => [style.backgroundColor, ...style.backgroundImage.match(/rgba?\([^)]*\)/g) || []]
  .map(parse).filter(colour => colour.alpha > 0);
const luminance = rgb => {
  const [red, green, blue] = rgb.map(value => value / 255)
    .map(value => value <= 0.03928 ? value / 12.92 : ((value + 0.055) / 1.055) ** 2.4);
  return 0.2126 * red + 0.7152 * green + 0.0722 * blue;
};
const ratio = (one, other) => {
  const [dark, light] = [luminance(one), luminance(other)].sort((a, b) => a - b);
  return (light + 0.05) / (dark + 0.05);
};
const boxes = Array.from(document.querySelectorAll('.box'), box => ({ place: box.getBoundingClientRect(), box }));
const grounds = element => {
  for (let at = element; at; at = at.parentElement) {
    const own = colours(getComputedStyle(at));
    if (own.length > 0 && at !== document.body) return own;
    if (at.id === 'rows') break;
  }
  const text = element.getBoundingClientRect(), middle = (text.top + text.bottom) / 2;
  const crossed = boxes.filter(({ place }) =>
    place.left < text.right && place.right > text.left && place.top < middle && place.bottom > middle);
  return [...crossed.flatMap(({ box }) => colours(getComputedStyle(box))), ...colours(getComputedStyle(document.body))];
};
let least = { contrast: 99, text: '', texts: 0 };
const walker = document.createTreeWalker(document.body, NodeFilter.SHOW_TEXT);
while (walker.nextNode()) {
  const element = walker.currentNode.parentElement, text = walker.currentNode.data.trim();
  if (!text || ['SCRIPT', 'STYLE', 'I'].includes(element.tagName) || element.getClientRects().length === 0) continue;
  const ink = parse(getComputedStyle(element).color).rgb;
  const contrast = Math.min(...grounds(element).map(ground => ratio(ink, ground.rgb)));
  least.texts++;
  if (contrast < least.contrast) least = { ...least, contrast, text: text + ' in ' + element.tagName + ' ' + element.className };
}
return least;
