"use strict";

/** Elements of SVG and HTML, with text as text. */
const Elements = (() => {
  const SVG = "http://www.w3.org/2000/svg";

  function filled(element, attributes, children) {
    for (const [name, value] of Object.entries(attributes)) element.setAttribute(name, value);
    element.append(...children);
    return element;
  }

  /** An element of SVG; children are elements or texts. */
  const svg = (name, attributes = {}, ...children) => filled(document.createElementNS(SVG, name), attributes, children);

  /** An element of HTML; children are elements or texts. */
  const html = (name, attributes = {}, ...children) => filled(document.createElement(name), attributes, children);

  /** A path through points. */
  const pathThrough = (points) => points.map(([x, y], at) => `${at ? "L" : "M"}${x.toFixed(1)} ${y.toFixed(1)}`).join("");

  return { svg, html, pathThrough };
})();
