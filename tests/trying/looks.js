// How the page looks, measured in it: what is past the window, too low to touch, cut, or too faint, words and lines.
(() => {
  const READABLE = 4.5, SEEN = 3, LOW = 24; // contrast of words and of lines by WCAG 2; pixels
  const seen = [...document.querySelectorAll("body *")].filter(one => one.getClientRects().length && !one.closest(".unseen"));
  const outside = seen.filter(one => !one.closest(".lanes")); // the order so far may scroll by itself
  const past = outside.filter(one => one.getBoundingClientRect().right > innerWidth + 1).map(one => one.id || one.className);
  const small = seen.filter(one => one.tagName === "BUTTON" && one.getBoundingClientRect().height < LOW).map(one => one.textContent);
  const cut = seen.filter(one => one.matches(".thread *, .thing *, button, .stretch *") && one.clientWidth)
    .filter(one => one.scrollWidth > one.clientWidth + 1).map(one => one.textContent);

  // Red, green, blue up to 1, and how much of it covers what is behind.
  const parsed = colour => {
    const [r, g, b, cover = 1] = colour.match(/[\d.]+(?:e-\d+)?/g).map(Number), most = colour.startsWith("color(") ? 1 : 255;
    return { rgb: [r / most, g / most, b / most], cover };
  };
  const over = ({ rgb, cover }, below) => rgb.map((part, at) => part * cover + below[at] * (1 - cover));
  const up = one => one ? [one, ...up(one.parentElement)] : [];
  const behind = one => up(one).reverse().reduce((below, each) => over(parsed(getComputedStyle(each).backgroundColor), below), [1, 1, 1]);
  const opacity = one => up(one).reduce((product, each) => product * Number(getComputedStyle(each).opacity), 1);
  const light = rgb => rgb.map(v => v <= 0.04045 ? v / 12.92 : ((v + 0.055) / 1.055) ** 2.4)
    .reduce((sum, v, at) => sum + v * [0.2126, 0.7152, 0.0722][at], 0);
  const ratio = (colour, one, ground) => {
    const { rgb, cover } = parsed(colour), drawn = over({ rgb, cover: cover * opacity(one) }, ground);
    const [bright, dark] = [light(drawn), light(ground)].sort((x, y) => y - x);
    return (bright + 0.05) / (dark + 0.05);
  };

  const hasWords = one => [...one.childNodes].some(node => node.nodeType === 3 && node.textContent.trim());
  const faint = seen.filter(one => hasWords(one) && !one.closest(":disabled"))
    .map(one => [ratio(getComputedStyle(one).color, one, behind(one)), one.textContent])
    .filter(([found]) => found < READABLE).map(([found, words]) => `${found.toFixed(1)} ${words}`);
  // Lines that tell something: the edges of threads that are there, of stretches, of what can be pressed, and the lives of threads.
  const edges = [...document.querySelectorAll(".thread.ready, .thread.waits, .thread.odd, .stretch, button:not(:disabled):not([aria-disabled])")]
    .filter(one => one.getClientRects().length).map(one => [one, getComputedStyle(one).borderLeftColor])
    .concat([...document.querySelectorAll(".life")].map(one => [one, getComputedStyle(one, "::before").borderLeftColor]));
  const thin = edges.map(([one, colour]) => [ratio(colour, one, behind(one.parentElement)), one.className])
    .filter(([found]) => found < SEEN).map(([found, look]) => `${found.toFixed(1)} ${look}`);
  return { past, small, cut, faint, thin, scrolls: document.documentElement.scrollWidth > innerWidth };
})()
