// The texts of a page that are shown with less contrast than 4.5 (WCAG 2, 1.4.3), or 3 where they are large, each with its
// contrast and its colours. Colours that let something through are laid over what is behind them.
(() => {
  const channels = text => {
    const found = (text.match(/[\d.]+%?/g) ?? []).map(Number);
    const scaled = text.startsWith("color(") ? found.slice(0, 3).map(it => it * 255) : found.slice(0, 3);
    return [...scaled, found[3] ?? 1];
  };
  const over = (top, below) => [0, 1, 2].map(it => top[it] * top[3] + below[it] * (1 - top[3])).concat(1);
  const light = colour => {
    const [red, green, blue] = colour.slice(0, 3).map(it => it / 255).map(it => it <= 0.04045 ? it / 12.92 : ((it + 0.055) / 1.055) ** 2.4);
    return 0.2126 * red + 0.7152 * green + 0.0722 * blue;
  };
  const behind = node => {
    const layers = [];
    for (let it = node; it; it = it.parentElement) layers.push(channels(getComputedStyle(it).backgroundColor));
    const canvas = matchMedia("(prefers-color-scheme: dark)").matches ? [18, 18, 18, 1] : [255, 255, 255, 1];
    return layers.reverse().reduce((below, top) => over(top, below), canvas);
  };
  const opacity = node => { let found = 1; for (let it = node; it; it = it.parentElement) found *= getComputedStyle(it).opacity; return found; };
  const low = [], look = (text, holder, style) => {
    const below = behind(holder), colour = channels(style.color), shown = over([...colour.slice(0, 3), colour[3] * opacity(holder)], below);
    const [one, other] = [light(shown), light(below)].sort((first, second) => second - first), ratio = (one + 0.05) / (other + 0.05);
    const size = parseFloat(style.fontSize), isLarge = size >= 24 || size >= 18.66 && style.fontWeight >= 700;
    if (ratio < (isLarge ? 3 : 4.5)) low.push(text.slice(0, 40) + ": " + ratio.toFixed(2) + " " + style.color + " on " + below.map(Math.round));
  };
  const walker = document.createTreeWalker(document.body, NodeFilter.SHOW_TEXT);
  for (let node = walker.nextNode(); node; node = walker.nextNode()) {
    const holder = node.parentElement, text = node.textContent.trim();
    if (!text || ["SCRIPT", "STYLE", "NOSCRIPT"].includes(holder.tagName) || !holder.checkVisibility({visibilityProperty: true}) || holder.closest(":disabled")) continue;
    look(text, holder, getComputedStyle(holder));
  }
  for (const field of document.querySelectorAll("[placeholder]")) look(field.placeholder, field, getComputedStyle(field, "::placeholder"));
  return [...new Set(low)];
})()
