"use strict";
/* The men, drawn for these pages: shapes on a square of 39 by 39, filled and outlined by style.css for either side. */
const Pieces = (() => {
  const SVG = "http://www.w3.org/2000/svg";
  const BASE = "M11.5 38.5h22a1.2 1.2 0 0 0 1.2-1.2v-2.1a2.2 2.2 0 0 0-2.2-2.2h-20a2.2 2.2 0 0 0-2.2 2.2v2.1a1.2 1.2 0 0 0 1.2 1.2z";

  /* For each kind: shapes with an outline, then lines inside. */
  const SHAPES = {
    p: [[
      "M19.4 21.5c0 5-2.6 8.200-4.700 11.500h15.600c-2.100-3.300-4.700-6.500-4.700-11.500z",
      "M16.700 21.700h11.600a1.400 1.400 0 0 0 0-2.800h-11.600a1.400 1.400 0 0 0 0 2.800z",
      "M22.500 8.300a5.400 5.400 0 1 0 .01 0z",
      BASE,
    ], []],
    r: [[
      "M16.800 18.500l-1.500 14.500h14.400l-1.500-14.500z",
      "M12.300 9.500h4.400v3h3.500v-3h4.600v3h3.500v-3h4.400v6.300l-3.200 3.200h-14l-3.200-3.200z",
      BASE,
    ], ["M15.500 19h14", "M14.800 29.500h15.400"]],
    n: [[
      "M13.200 33c.3-5.400 6.300-7.700 7.200-12.700-2.300 2-5.200 2.300-6.700 4.100-1 1.200-2.700 1.600-3.900.6-1.400-1.100-1.700-3.100"
        + "-.8-4.700 1.300-2.300 3.500-4.600 4.200-6.900.5-1.800 1.400-3.200 3-4.300l-.3-4.200 3.700 2.800c8.600-.2 13.700 6.600 13.700"
        + " 16.300 0 3.600-.5 6.300-1 9z",
      BASE,
    ], ["M24.200 11.300c4.300 2.100 6 6.500 6.100 12.200"], [
      "M17.200 13.600a1.150 1.150 0 1 0 .01 0z", "M11.300 22.200a.8.8 0 1 0 .01 0z",
    ]],
    b: [[
      "M17.300 29.500c0 1.500-1 2.600-2.300 3.500h15c-1.300-.9-2.300-2-2.300-3.500z",
      "M22.500 9.500c4.700 3.400 7.600 7.400 7.600 11.400 0 3.900-2.900 6.100-7.600 6.100s-7.600-2.200-7.600-6.100"
        + "c0-4 2.900-8 7.600-11.400z",
      "M16.500 29.600h12a1.350 1.350 0 0 0 0-2.700h-12a1.350 1.350 0 0 0 0 2.700z",
      "M22.500 5.200a2.250 2.250 0 1 0 .01 0z",
      BASE,
    ], ["M22.500 14.500v8", "M19 18h7"]],
    q: [[
      "M9.300 14.800l5.200 14h16l5.200-14-6.300 7-1.300-11-5.600 9.900-5.600-9.900-1.300 11z",
      "M14.400 28.600c1 1.200 1 2.900-.2 4.400h16.600c-1.200-1.500-1.200-3.200-.2-4.400z",
      "M8.800 11.200a2.100 2.100 0 1 0 .01 0z", "M16.700 7.200a2.100 2.100 0 1 0 .01 0z",
      "M28.300 7.200a2.100 2.100 0 1 0 .01 0z", "M36.200 11.200a2.100 2.100 0 1 0 .01 0z",
      BASE,
    ], ["M14.600 28.800h15.800"]],
    k: [[
      "M21.200 4.200h2.600v2.700h2.700v2.500h-2.700v4h-2.600v-4h-2.700v-2.500h2.700z",
      "M22.500 12c2.300 1.900 3.200 4.300 3.200 6.300 0 2.600-1.400 5-3.200 6.800-1.800-1.800-3.200-4.200-3.200-6.800"
        + " 0-2 .9-4.400 3.200-6.300z",
      "M14.500 28.700c-6.500-5-5.700-12.700.5-13 3.900-.1 6.600 3 7.500 8.300.9-5.300 3.600-8.400 7.500-8.300 6.200.3 7 8 .5 13z",
      "M14.400 28.600c1 1.200 1 2.900-.2 4.400h16.600c-1.200-1.500-1.200-3.200-.2-4.400z",
      BASE,
    ], ["M14.600 28.800h15.800"]],
  };

  function path(d, name) {
    const it = document.createElementNS(SVG, "path");
    it.setAttribute("d", d);
    it.setAttribute("class", name);
    return it;
  }

  /** A drawing of a piece, by its letter. */
  function draw(letter) {
    const svg = document.createElementNS(SVG, "svg");
    svg.setAttribute("viewBox", "3 2.2 39 39");
    svg.setAttribute("class", `piece ${letter === letter.toUpperCase() ? "white" : "black"}`);
    svg.setAttribute("aria-hidden", "true");
    svg.dataset.piece = letter;
    const [bodies, lines, dots = []] = SHAPES[letter.toLowerCase()];
    svg.append(...bodies.map((it) => path(it, "body")), ...lines.map((it) => path(it, "line")), ...dots.map((it) => path(it, "dot")));
    return svg;
  }

  /** Shows a piece on a square by its letter, or none for "". */
  function put(cell, letter) {
    const shown = cell.querySelector(".piece");
    if (!shown || shown.dataset.piece !== letter) {
      cell.replaceChildren(...(letter === "" ? [] : [draw(letter)]));
    }
  }

  const COLOURS = ["fill", "stroke", "stroke-width", "stroke-linejoin", "stroke-linecap"];

  /** A drawing of a piece as an image's address, in the colours of the page. */
  function image(letter) {
    const svg = draw(letter);
    document.body.append(svg);
    svg.querySelectorAll("path").forEach((it) => {
      const style = getComputedStyle(it);
      COLOURS.forEach((name) => it.setAttribute(name, style.getPropertyValue(name)));
    });
    svg.remove();
    return `data:image/svg+xml,${encodeURIComponent(new XMLSerializer().serializeToString(svg))}`;
  }

  /** Gives the page rules of style by which each square with `data-man`, in a holder of the class `images`, shows that piece's image. */
  function giveImages() {
    const sheet = new CSSStyleSheet();
    [..."KQRBNPkqrbnp"].forEach((letter) => {
      const man = `url("${image(letter)}")`;
      sheet.insertRule(`.images .line .square[data-man="${letter}"] { background-image: ${man}; }`);
      sheet.insertRule(`.images .line .square.check[data-man="${letter}"] { background-image: ${man}, var(--checked); }`);
    });
    document.adoptedStyleSheets = [...document.adoptedStyleSheets, sheet];
  }

  /** Shows a piece on a square as an image, for boards of which there are many: it costs no element and no layout. */
  function putImage(cell, letter) {
    if (cell.dataset.man !== letter) {
      cell.dataset.man = letter;
    }
  }

  return { draw, put, giveImages, putImage };
})();
