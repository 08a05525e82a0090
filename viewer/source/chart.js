"use strict";

/**
 * The run as a message chart: a column for each controller and each switch, time downwards, an arrow for each frame
 * along the way of its last cell, labels and joins as bars while they stand.
 */
const Chart = (() => {
  const { svg, pathThrough } = Elements;

  const ROW = 16;
  const GUTTER = 330;
  const COLUMN = 120;
  const LANE = 14;
  const HEAD = 40;
  const MARGIN = 420;
  const LETTER = 6.05;

  /** More events than this aren't saved in one picture. */
  const MOST_SAVED = 10000;

  const STYLE = `
    .chart text { font: 10px ui-monospace, "DejaVu Sans Mono", Menlo, Consolas, monospace; fill: #111; white-space: pre; }
    .chart .column { stroke: #767676; stroke-width: 1; }
    .chart .column.switch { stroke-dasharray: 4 3; }
    .chart .actor { font-weight: bold; text-anchor: middle; }
    .chart .says { fill: #00527f; font-weight: bold; }
    .chart .arrow { fill: none; stroke-width: 3; stroke-linejoin: round; }
    .chart .arrow.message { stroke-width: 1.3; }
    .chart .arrow.chosen { stroke-width: 5; }
    .chart .words { paint-order: stroke; stroke: #fff; stroke-width: 3px; }
    .chart .bar { fill: #b8dccb; stroke: #006b4d; }
    .chart .bar.join { fill: #bcd9ec; stroke: #005a8f; }
    .chart .cross { fill: none; stroke: #b00020; stroke-width: 2.5; }
    .chart .current { fill: #fff1b8; }
    .chart .ground { fill: #fff; }`;

  /** The bars of spans, each in the first lane beside its actor's column that is free. */
  function barsOf(kind, actor, spans) {
    const lanes = new Map();
    return spans.map((span) => {
      const column = `${actor} ${span.node}`;
      if (!lanes.has(column)) lanes.set(column, []);
      const ends = lanes.get(column);
      const free = ends.findIndex((until) => until <= span.from);
      const lane = free === -1 ? ends.length : free;
      ends[lane] = span.until;
      return { ...span, kind, column, lane };
    });
  }

  /** Whether two ranges meet. */
  const isIn = (from, until, first, last) => from <= last && until >= first;

  /** The head of an arrow, at the end of its last stretch. */
  function headAt([fromX, fromY], [x, y]) {
    const length = Math.hypot(x - fromX, y - fromY) || 1;
    const [along, across] = [(x - fromX) / length, (y - fromY) / length];
    const side = (turn) => [x - 8 * along + turn * 4 * across, y - 8 * across - turn * 4 * along];
    return pathThrough([side(1), [x, y], side(-1)]);
  }

  /** A text that has to do with this room. */
  function cut(text, room) {
    const most = Math.floor(room / LETTER);
    return text.length > most ? `${text.slice(0, most - 1)}…` : text;
  }

  /** The stretch by which an arrow passes from above one height to below another, or -1. */
  function passAt(points, top, bottom) {
    const at = points.findIndex(([, y]) => y >= top) - 1;
    return at >= 0 && points[at + 1][1] > bottom ? at : -1;
  }

  class MessageChart {
    /**
     * @param {HTMLElement} box  scrolls
     * @param {object} run
     * @param {(position: number) => void} go
     * @param {(key: string) => void} choose
     * @param {string|null} chosen  the packet, or the frame of messages, that is chosen
     */
    constructor(box, run, go, choose, chosen) {
      Object.assign(this, { box, run, go, choose, chosen, position: 0 });
      this.bars = [...barsOf("label", "controller", run.labels.all), ...barsOf("join", "switch", run.joins.all)];
      this.placeColumns();
      this.measure();
      this.arrows = run.frames.map((frame) => this.arrowOf(frame));
      this.root = svg("svg", { class: "chart", width: this.width });
      this.root.addEventListener("click", (event) => this.obey(event.target));
      this.current = svg("rect", { class: "current", x: 0, width: this.width });
      const size = `width:${this.width}px;height:${this.height + HEAD}px`;
      box.replaceChildren(Elements.html("div", { class: "room", style: size }, this.root));
      box.onscroll = () => this.draw();
      this.draw();
    }

    /** Each column has room for its bars on its left. */
    placeColumns() {
      const lanes = new Map();
      for (const { column, lane } of this.bars) lanes.set(column, Math.max(lanes.get(column) ?? 0, lane + 1));
      this.columns = new Map();
      let x = GUTTER - COLUMN / 2;
      for (const id of this.run.network.actors.keys()) {
        x += COLUMN + LANE * Math.max(0, (lanes.get(id) ?? 0) - 2);
        this.columns.set(id, x);
      }
      this.right = x + COLUMN / 2;
      this.width = this.right + MARGIN;
    }

    /** The upper edge of each position's row: an event has a line for its words and each saying, and one for each frame. */
    measure() {
      this.end = Run.endOf(this.run);
      this.tops = new Float64Array(this.end + 2);
      this.run.rows.forEach((count, at) => {
        this.tops[at + 2] = this.tops[at + 1] + ROW * count;
      });
      this.height = this.tops[this.end + 1] + ROW;
    }

    /** The last position whose row begins at or above this height. */
    positionAt(y) {
      let low = 1;
      let high = this.end;
      while (low < high) {
        const middle = (low + high + 1) >> 1;
        if (this.tops[middle] <= y) low = middle;
        else high = middle - 1;
      }
      return low;
    }

    lineOf(position, at) {
      return this.tops[position] + ROW * (at + 0.5);
    }

    /** The points of a frame's way, and how it ends. */
    arrowOf(frame) {
      const { places } = this.run.network;
      const start = this.lineOf(frame.from, frame.place);
      let stay = frame.lastCell;
      if (!stay) {
        const maker = this.columns.get(Words.actorOf(this.run, Run.eventAt(this.run, frame.from))?.id) ?? GUTTER;
        return { frame, points: [[maker, start]], until: frame.from, ending: "lost" };
      }
      const points = [[this.columns.get(places.get(stay.queue).from.id), start]];
      for (; stay; stay = stay.next) {
        const [from, to] = [points[points.length - 1][0], this.columns.get(places.get(stay.queue).to.id)];
        const until = Math.min(stay.until, this.end);
        const isThere = stay.until <= this.end && !stay.isLost;
        points.push([isThere ? to : to - Math.sign(to - from) * 0.4 * COLUMN, this.lineOf(until, 0)]);
        if (!stay.next) return { frame, points, until, ending: stay.isLost ? "lost" : isThere ? "there" : "under way" };
      }
      return null;
    }

    /** A click on a row goes to its event, one on a frame chooses it. */
    obey(target) {
      const shape = target.closest("[data-position], [data-mark]");
      if (shape?.dataset.mark) this.choose(Run.keyOfMark(shape.dataset.mark));
      else if (shape) this.go(Number(shape.dataset.position));
    }

    /** Marks the row of a position, and brings it into sight. */
    show(position) {
      this.position = position;
      const top = this.tops[position];
      const room = this.box.clientHeight - HEAD - 2 * ROW;
      if (top < this.box.scrollTop || top > this.box.scrollTop + room) {
        this.box.scrollTop = Math.max(0, top - room / 2);
        this.draw();
      }
      this.markRow();
    }

    markRow() {
      const [top, end] = [this.tops[this.position], this.tops[this.position + 1]];
      this.current.setAttribute("y", top);
      this.current.setAttribute("height", end - top);
    }

    mark(key) {
      this.chosen = key;
      this.draw();
    }

    /** Draws what is in sight. */
    draw() {
      const { scrollTop: top, scrollLeft: left, clientHeight: height, clientWidth } = this.box;
      this.root.setAttribute("height", height);
      this.root.setAttribute("viewBox", `0 ${top - HEAD} ${this.width} ${height}`);
      const bottom = Math.min(this.height, top + height - HEAD);
      const [first, last] = [this.positionAt(top), Math.min(this.end, this.positionAt(bottom))];
      const sight = { first, last, top, bottom, left, right: left + clientWidth, width: this.width };
      this.root.replaceChildren(...this.scene(sight));
      this.root.querySelector(".rows").prepend(this.current);
      this.markRow();
    }

    /**
     * All that can be seen of the chart.
     * @param {{first: number, last: number, top: number, bottom: number, left: number, right: number, width: number}} sight
     *     the first and the last position of it, its edges, and the width of the chart
     */
    scene(sight) {
      const { first, last, top, bottom, left, right, width } = sight;
      const rows = svg("g", { class: "rows" });
      for (let at = first; at <= last; at++) rows.append(this.rowOf(at));
      const columns = [...this.columns].filter(([, x]) => left <= x && x <= right).map(([id, x]) =>
        svg("line", { class: `column ${id.split(" ")[0]}`, x1: x, x2: x, y1: top, y2: bottom }));
      const bars = this.bars.filter((bar) => isIn(bar.from, bar.until, first, last))
        .filter((bar) => isIn(this.barLeft(bar), this.barLeft(bar) + LANE, left, right));
      const arrows = this.arrows.filter(({ frame, until }) => isIn(frame.from, until, first, last));
      const begun = arrows.filter(({ frame }) => frame.from >= first);
      const ground = svg("rect", { class: "ground", x: 0, y: top - HEAD, width, height: bottom - top + HEAD });
      return [svg("style", {}, STYLE), ground, rows, ...bars.map((bar) => this.barOf(bar, top, bottom)), ...columns,
        ...this.arrowShapes(arrows, sight), ...begun.map((arrow) => this.arrowWords(arrow, width)), this.headOf(sight)];
    }

    /** The names of the columns. */
    headOf({ top, left, right, width }) {
      const names = [...this.columns].filter(([, x]) => left - COLUMN <= x && x <= right + COLUMN).map(([id, x]) => {
        const [kind, node] = id.split(" ");
        return svg("text", { class: "actor", x, y: top - 22 }, node, svg("tspan", { x, dy: 13 }, kind));
      });
      const ground = svg("rect", { class: "ground", x: 0, y: top - HEAD, width, height: HEAD });
      return svg("g", {}, ground, ...names, svg("line", { class: "column", x1: 0, x2: width, y1: top, y2: top }));
    }

    /** An event's number and words, and below them what it said. */
    rowOf(position) {
      const { event, do: words, says } = Run.eventAt(this.run, position);
      const top = this.tops[position];
      const room = GUTTER - 24;
      const sayings = says.map((saying, at) =>
        svg("text", { class: "says", x: 20, y: top + 12 + ROW * (at + 1) }, cut(saying, room)));
      return svg("g", { "data-position": position }, svg("title", {}, [words, ...says].join("\n")),
        svg("text", { x: 8, y: top + 12 }, cut(`${event} ${words}`, room)), ...sayings);
    }

    barLeft({ column, lane }) {
      return this.columns.get(column) - 18 - lane * LANE;
    }

    /** A label or a join, beside the column of its controller or its switch, from its beginning to its end. */
    barOf(bar, top, bottom) {
      const { kind, port, channel, toPort, toChannel, from, until } = bar;
      const x = this.barLeft(bar);
      const y = this.lineOf(from, 0);
      const end = until <= this.end ? this.lineOf(until, 0) : this.height;
      const name = kind === "join" ? `${port} ${channel} to ${toPort} ${toChannel}` : `${port} ${channel}`;
      const head = Math.max(y, top) + 4;
      return svg("g", { class: kind }, svg("title", {}, `${kind} ${name}`),
        svg("rect", { class: `bar ${kind}`, x, y, width: 12, height: Math.max(2, end - y) }),
        Math.min(end, bottom) - head > name.length * LETTER
          ? svg("text", { transform: `translate(${x + 3} ${head}) rotate(90)` }, name) : "");
    }

    /** The arrows of a stretch of the chart; those that only pass through it are one shape for each look. */
    arrowShapes(arrows, { top, bottom, left, right }) {
      const passing = new Map();
      const shapes = [];
      for (const arrow of arrows) {
        const places = arrow.points.map(([x]) => x);
        if (!isIn(Math.min(...places), Math.max(...places), left, right)) continue;
        const at = passAt(arrow.points, top, bottom);
        if (at === -1) {
          shapes.push(...this.arrowShape(arrow));
          continue;
        }
        const { kind, colour } = this.lookOf(arrow.frame);
        const key = `${kind};${colour}`;
        passing.set(key, (passing.get(key) ?? "") + pathThrough(arrow.points.slice(at, at + 2)));
      }
      const through = [...passing].map(([key, d]) => {
        const [kind, stroke] = key.split(";");
        return svg("path", { class: kind, d, stroke });
      });
      return [...through, ...shapes];
    }

    lookOf({ mark }) {
      const kind = mark.startsWith("0.") ? "arrow message" : "arrow";
      return { kind: Run.keyOfMark(mark) === this.chosen ? `${kind} chosen` : kind, colour: Cells.colourOf(mark) };
    }

    arrowShape({ frame, points, ending }) {
      const { kind, colour } = this.lookOf(frame);
      const way = pathThrough(points) + (ending === "there" ? headAt(...points.slice(-2)) : "");
      const arrow = svg("path", { class: kind, d: way, stroke: colour, "data-mark": frame.mark });
      if (ending !== "lost") return [arrow];
      const [x, y] = points[points.length - 1];
      const cross = svg("path", { class: "cross", d: "M-5 -5L5 5M-5 5L5 -5", transform: `translate(${x} ${y})` });
      return [arrow, cross];
    }

    /** A frame's text begins at the left end of its first stretch, in the line in which it was made. */
    arrowWords({ frame, points }, width) {
      const x = Math.min(...points.slice(0, 2).map(([at]) => at)) + 8;
      const words = cut(`${frame.mark} ${frame.text}`, width - x);
      return svg("text", { class: "words", x, y: points[0][1] - 2, "data-mark": frame.mark }, words);
    }

    /**
     * The chart as a text of SVG. Of a long run it has the events from the shown one on.
     * @returns {{text: string, first: number, last: number}}  with the numbers of the first and the last event in it
     */
    saved() {
      const first = this.end <= MOST_SAVED ? 1 : Math.max(1, this.position);
      const last = Math.min(this.end, first + MOST_SAVED - 1);
      const [top, bottom] = [this.tops[first], last === this.end ? this.height : this.tops[last + 1]];
      const height = bottom - top + HEAD;
      const longest = this.run.frames.reduce((most, { mark, text }) => Math.max(most, mark.length + text.length + 3), 0);
      const width = this.right + longest * LETTER;
      const viewBox = `0 ${top - HEAD} ${width} ${height}`;
      const picture = svg("svg", { class: "chart", width, height, viewBox },
        ...this.scene({ first, last, top, bottom, left: 0, right: width, width }));
      const text = new XMLSerializer().serializeToString(picture);
      return { text, first: Run.numberAt(this.run, first), last: Run.numberAt(this.run, last) };
    }
  }

  return { MessageChart };
})();
