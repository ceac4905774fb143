// What a program can see of the page's accessibility.
({
  // The texts with less than `least` of contrast, and the edges of things that one uses with less than `edge`.
  contrast(least, edge) {
    const colour = (text) => {
      const [r, g, b, a = 1] = text.match(/[\d.]+/g).map(Number);
      return { rgb: [r, g, b], a };
    };
    const over = (top, under) => ({ rgb: top.rgb.map((it, at) => it * top.a + under.rgb[at] * (1 - top.a)), a: 1 });
    const ground = (it) => {
      if (!it) return colour("rgb(255, 255, 255)");
      const own = colour(getComputedStyle(it).backgroundColor);
      return own.a === 1 ? own : over(own, ground(it.parentElement));
    };
    const linear = (it) => (it <= 0.04045 ? it / 12.92 : ((it + 0.055) / 1.055) ** 2.4);
    const light = ({ rgb }) => {
      const [r, g, b] = rgb.map((it) => linear(it / 255));
      return 0.2126 * r + 0.7152 * g + 0.0722 * b;
    };
    const ratio = (one, other) => {
      const [less, more] = [light(one), light(other)].sort((a, b) => a - b);
      return (more + 0.05) / (less + 0.05);
    };
    const seen = (it) => it.getClientRects().length > 0 && !it.closest("[hidden], :disabled");
    const isText = (it) => it.tagName === "TEXTAREA" ||
      [...it.childNodes].some((node) => node.nodeType === Node.TEXT_NODE && node.textContent.trim());
    const ink = (it) => colour(getComputedStyle(it)[it instanceof SVGElement ? "fill" : "color"]);
    const texts = [...document.querySelectorAll("body *")].filter((it) => seen(it) && isText(it));
    const of = (it) => ratio(over(ink(it), ground(it)), ground(it));
    const faint = texts.map((it) => [of(it), it.tagName, it.id, it.textContent.slice(0, 20)]);
    const used = [...document.querySelectorAll("button, select, .button, #desk")].filter(seen);
    const edgeOf = (it) => ratio(colour(getComputedStyle(it).borderTopColor), ground(it.parentElement));
    const pale = used.map((it) => [edgeOf(it), it.id]);
    return [...faint.filter(([it]) => it < least), ...pale.filter(([it]) => it < edge)].slice(0, 5);
  },

  // Language, title, headings, landmarks, references, and what scrolls without keys.
  form() {
    const all = (selector) => [...document.querySelectorAll(selector)];
    const ids = all("[id]").map((it) => it.id), refers = ["aria-labelledby", "aria-describedby", "for"];
    const referring = all("[aria-labelledby], [aria-describedby], label[for]");
    const names = referring.flatMap((it) => refers.map((name) => it.getAttribute(name)));
    const doesScroll = (how) => how === "auto" || how === "scroll";
    const scrolls = (it) => ["overflowX", "overflowY"].some((name) => doesScroll(getComputedStyle(it)[name]));
    const isLong = (it) => it.clientWidth && it.scrollHeight + it.scrollWidth > it.clientHeight + it.clientWidth + 1;
    const isReached = (it) => it.tabIndex >= 0 || it.querySelector("a, button, input, textarea, [tabindex='0']");
    return {
      language: document.documentElement.lang, title: Boolean(document.title), doubled: ids.length - new Set(ids).size,
      lost: names.filter((it) => it && !document.getElementById(it)),
      headings: all("h1, h2, h3").map((it) => it.tagName).join(" "),
      landmarks: ["header", "main", "footer"].map((it) => all(it).length),
      unreached: all("body *").filter((it) => scrolls(it) && isLong(it) && !isReached(it)).map((it) => it.id),
      keepsZoom: !/user-scalable|maximum/.test(document.querySelector("meta[name=viewport]").content),
    };
  },

  // Whether one sees where the focus is: an outline, of the thing or of its label, or a stroke of a cell.
  isFocusSeen() {
    const it = document.activeElement;
    const isOutlined = (of) => of && getComputedStyle(of).outlineStyle !== "none" &&
      parseFloat(getComputedStyle(of).outlineWidth) >= 1;
    const isStroked = (of) => getComputedStyle(of).stroke !== "none" &&
      parseFloat(getComputedStyle(of).strokeWidth) >= 1;
    if (it instanceof SVGElement) return [...it.querySelectorAll("rect")].every(isStroked);
    return Boolean(isOutlined(it) || isOutlined(it.nextElementSibling));
  },

  // The thing that has the focus.
  focus() {
    const it = document.activeElement;
    return it === document.body ? "" : it.id || it.dataset.cell || `${it.tagName} ${it.textContent.slice(0, 20)}`;
  },
})
