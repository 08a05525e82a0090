"use strict";

/** How cells look: a colour for each frame, full for packets and hollow for messages; a bar marks the last cell. */
const Cells = (() => {
  /** Colours that the colour-blind tell apart (Okabe and Ito), those that show on white. */
  const COLOURS = ["#0072b2", "#d55e00", "#009e73", "#cc79a7", "#e69f00", "#56b4e9"];
  const SIZE = 11;
  const PITCH = 13;

  /** The frames of one packet have its colour; each frame of messages has its own. */
  function colourOf(mark) {
    const [packet, frame] = mark.split(".").map(Number);
    return COLOURS[(packet === 0 ? frame : packet) % COLOURS.length];
  }

  /** A cell, drawn around the origin. */
  function draw(stay, isForged) {
    const isMessage = stay.mark.startsWith("0.");
    const colour = colourOf(stay.mark);
    const { svg } = Elements;
    const square = svg("rect", {
      x: -SIZE / 2 + 1, y: -SIZE / 2 + 1, width: SIZE - 2, height: SIZE - 2,
      fill: isMessage ? "#fff" : colour, stroke: colour, "stroke-width": 2,
    });
    if (isForged) square.setAttribute("stroke-dasharray", "2 1.5");
    const ring = svg("rect", { class: "ring", x: -SIZE / 2 - 1, y: -SIZE / 2 - 1, width: SIZE + 2, height: SIZE + 2 });
    const group = svg("g", { class: "cell", "data-mark": stay.mark }, square, ring);
    if (stay.last) group.append(svg("circle", { r: 2.2, fill: isMessage ? colour : "#fff" }));
    const last = stay.last ? ", the last of its frame" : "";
    group.append(svg("title", {}, `${stay.mark} on channel ${stay.channel}${last}`));
    return group;
  }

  /** The cross over a lost cell. */
  function cross(size = 9) {
    return Elements.svg("path", { class: "cross", d: `M${-size} ${-size}L${size} ${size}M${-size} ${size}L${size} ${-size}` });
  }

  return { draw, cross, colourOf, PITCH };
})();
