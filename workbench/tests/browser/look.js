// What is wrong with how a page looks: what goes beyond its width, what is cut off in its cell, which texts are faint,
// which controls have no name.
const least = arguments[0];
const all = (selector) => [...document.querySelectorAll(selector)];
const isSeen = (one) => one.checkVisibility({ visibilityProperty: true }) && !one.closest(".spoken, dialog");

const paper = Object.assign(document.createElement("canvas"), { width: 1, height: 1 });
const pen = paper.getContext("2d", { willReadFrequently: true });

// A colour as red, green, blue and how much of it there is, by drawing it.
function colour(text) {
  pen.clearRect(0, 0, 1, 1);
  pen.fillStyle = text;
  pen.fillRect(0, 0, 1, 1);
  const [red, green, blue, much] = pen.getImageData(0, 0, 1, 1).data;
  return { parts: [red, green, blue], much: much / 255 };
}

// The colour behind an element: the grounds of all that it stands in, one over the other.
function ground(element) {
  const grounds = [];
  for (let one = element; one; one = one.parentElement) grounds.unshift(colour(getComputedStyle(one).backgroundColor));
  return grounds.reduce((under, over) => under.map((part, i) => over.parts[i] * over.much + part * (1 - over.much)),
    [255, 255, 255]);
}

// How bright a colour is, as WCAG 2 counts it.
function brightness(parts) {
  const [red, green, blue] = parts.map((part) => part / 255).map((part) =>
    (part <= 0.04045 ? part / 12.92 : ((part + 0.055) / 1.055) ** 2.4));
  return 0.2126 * red + 0.7152 * green + 0.0722 * blue;
}

// How far a text's colour stands out from its ground.
function contrast(element) {
  const [one, other] = [brightness(colour(getComputedStyle(element).color).parts), brightness(ground(element))];
  return (Math.max(one, other) + 0.05) / (Math.min(one, other) + 0.05);
}

// Whether an element has a text of its own.
function hasText(element) {
  return [...element.childNodes].some((node) => node.nodeType === Node.TEXT_NODE && node.data.trim());
}

const texts = all("body *").filter((one) => hasText(one) && isSeen(one) && !one.closest("script, style, :disabled"));
const faint = texts.filter((one) => contrast(one) < least);
const cut = all(".boxes, .box, section, nav").filter((box) => box.scrollWidth > box.clientWidth + 1);
const controls = all("button, input").filter(isSeen);
const unnamed = controls.filter((one) => !(one.ariaLabel || one.textContent.trim() || one.labels?.length));
const wide = document.documentElement.scrollWidth;
const name = (one) => `${one.className || one.id || one.tagName} ${one.textContent.trim().slice(0, 40)}`;
return {
  beyond: wide > window.innerWidth ? [`${wide} > ${window.innerWidth}`] : [],
  cut: cut.map(name), unnamed: unnamed.map(name),
  faint: faint.map((one) => `${name(one)} ${contrast(one).toFixed(2)}`),
  ground: getComputedStyle(document.body).backgroundColor,
};
