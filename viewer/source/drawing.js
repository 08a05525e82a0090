"use strict";

/** The network as a drawing, at a position of its run. */
const Drawing = (() => {
  const { svg, pathThrough } = Elements;
  const { BOX, FLOW_GAP, switchTop, pointOn } = Layout;

  /** The first cell stands this far from the end of its lane. */
  const HEAD = 17;

  /** More bound labels of a link than this are counted, not listed. */
  const MOST_TAGS = 2;

  class NetworkDrawing {
    /**
     * @param {SVGSVGElement} root
     * @param {object} run
     * @param {(key: string) => void} choose  called with the packet, or the frame of messages, of a clicked cell
     */
    constructor(root, run, choose) {
      this.run = run;
      this.layout = Layout.of(run.network);
      this.choose = choose;
      this.position = null;
      this.epochs = {};
      this.shown = new Map();
      this.flying = [];
      this.layers = {};
      root.replaceChildren();
      root.setAttribute("viewBox", `0 0 ${this.layout.width} ${this.layout.height}`);
      for (const name of ["lanes", "boxes", "joins", "sessions", "tags", "cells", "passing", "notes"]) {
        this.layers[name] = svg("g", { class: name });
        root.append(this.layers[name]);
      }
      this.drawNodes();
      this.drawLanes();
    }

    drawNodes() {
      const middle = BOX.width / 2;
      this.actors = new Map();
      for (const box of this.layout.boxes.values()) {
        const top = BOX.router + BOX.control;
        const router = svg("rect", { class: "router", width: BOX.width, height: BOX.router, rx: 16 });
        const switchBox = svg("rect", { class: "switch", y: top, width: BOX.width, height: box.height });
        this.actors.set(`controller ${box.name}`, router).set(`switch ${box.name}`, switchBox);
        this.layers.boxes.append(svg("g", { transform: `translate(${box.x} ${box.y})` }, router, switchBox,
          svg("text", { class: "name", x: middle, y: 20, "text-anchor": "middle" }, box.name),
          svg("text", { class: "address", x: middle, y: 37, "text-anchor": "middle" }, box.address),
          svg("text", { class: "caption", x: middle, y: top + box.height - 6, "text-anchor": "middle" }, "switch")));
      }
      for (const [name, { x, y, side }] of this.layout.ports) {
        const [at, anchor] = side === "left" ? [x + 7, "start"] : [x - 7, "end"];
        this.layers.boxes.append(svg("text", { class: "port", x: at, y: y - 6, "text-anchor": anchor }, name.split(":")[1]));
      }
    }

    drawLanes() {
      this.groups = new Map();
      for (const lane of this.layout.lanes.values()) {
        const way = svg("path", { class: "lane", d: pathThrough(lane.points) });
        const [x, y] = pointOn(lane, 0);
        const [fromX, fromY] = pointOn(lane, 4);
        const turn = (Math.atan2(y - fromY, x - fromX) * 180) / Math.PI;
        const tip = svg("path", { class: "tip", d: "M0 0L-7 -4L-7 4Z", transform: `translate(${x} ${y}) rotate(${turn})` });
        this.layers.lanes.append(way, tip);
        const group = svg("g", { "data-queue": lane.queue });
        this.groups.set(lane.queue, group);
        this.layers.cells.append(group);
      }
    }

    /** Where the cell at this place of its queue stands, from 0. */
    spot(queue, place) {
      return pointOn(this.layout.lanes.get(queue), HEAD + place * Cells.PITCH);
    }

    /** How many cells of a queue there is room for. */
    roomOf(queue) {
      return Math.max(1, Math.floor((this.layout.lanes.get(queue).length - HEAD - 8) / Cells.PITCH));
    }

    /** The cell that the event before a position lost, in the queue where it stood. */
    lostAt(position) {
      const took = Run.eventAt(this.run, position)?.took;
      if (!took) return null;
      const queue = this.run.queues.get(took.queue);
      const stay = queue.stays[queue.rangeAt(position)[0] - 1];
      return stay.isLost ? stay : null;
    }

    /** What a lane shows: the cells that stand in it, a lost one in front of them. */
    contentOf(name, position, lost) {
      const queue = this.run.queues.get(name);
      const [head, end] = queue.rangeAt(position);
      const hasLost = lost !== null && lost.queue === name;
      return { from: hasLost ? head - 1 : head, end, hasLost, length: end - head };
    }

    /**
     * Shows a position. Where it is one event further than what is shown and a duration is given, the cells move.
     * @param {number} position
     * @param {number} duration  in milliseconds; 0 for none
     */
    show(position, duration) {
      const isStep = this.position !== null && position === this.position + 1;
      this.land();
      const lost = this.lostAt(position);
      const moves = duration > 0 && isStep ? this.movesTo(position) : new Map();
      for (const name of this.changedSince(position)) {
        this.showQueue(name, this.contentOf(name, position, lost), moves, duration);
      }
      if (moves.size) this.absorb(position, moves, duration);
      this.showSpans(position);
      this.showEvent(position, lost);
      this.position = position;
    }

    /** The queues that may look otherwise than now: of one event those that it touched, and where a lost cell was shown. */
    changedSince(position) {
      if (this.position === null || Math.abs(position - this.position) !== 1) return this.groups.keys();
      const names = new Set();
      for (const at of [position, this.position]) {
        const { took, put } = Run.eventAt(this.run, at) ?? { took: null, put: [] };
        for (const cell of took ? [took, ...put] : put) names.add(cell.queue);
      }
      return names;
    }

    /** Where cells come from in the event that leads to a position: for a cell that stays in its queue, its place before. */
    movesTo(position) {
      const moves = new Map();
      const took = Run.eventAt(this.run, position)?.took;
      if (!took) return moves;
      const queue = this.run.queues.get(took.queue);
      const [head, end] = queue.rangeAt(position);
      const taken = queue.stays[head - 1];
      if (taken.isLost) return moves;
      moves.set(taken.next ?? taken, this.spot(took.queue, 0));
      const most = Math.min(end, head + this.roomOf(took.queue));
      for (let at = head; at < most; at++) moves.set(queue.stays[at], this.spot(took.queue, at - head + 1));
      return moves;
    }

    showQueue(name, content, moves, duration) {
      const before = this.shown.get(name);
      const { from, end, hasLost } = content;
      if (before && before.from === from && before.end === end && before.hasLost === hasLost) return;
      this.shown.set(name, content);
      const group = this.groups.get(name);
      const stays = this.run.queues.get(name).stays.slice(from, Math.min(end, from + this.roomOf(name)));
      group.replaceChildren(...stays.map((stay, place) =>
        this.cellAt(stay, this.spot(name, place), moves.get(stay), duration)));
      if (hasLost) group.firstChild.append(Cells.cross());
      if (end - from > stays.length) group.append(this.restOf(name, end - from - stays.length));
      group.setAttribute("data-length", content.length);
    }

    cellAt(stay, [x, y], origin, duration) {
      const cell = Cells.draw(stay, this.run.frameOf.get(stay.mark).isForged);
      cell.classList.toggle("chosen", Run.keyOfMark(stay.mark) === this.chosen);
      cell.setAttribute("transform", `translate(${x} ${y})`);
      cell.addEventListener("click", () => this.choose(Run.keyOfMark(stay.mark)));
      if (origin) this.fly(cell, origin, [x, y], duration);
      return cell;
    }

    /** How many cells have no room on their lane. */
    restOf(name, count) {
      const [x, y] = this.spot(name, this.roomOf(name));
      return svg("text", { class: "rest", x, y: y + 4, "text-anchor": "middle" }, `+${count}`);
    }

    fly(element, [fromX, fromY], [x, y], duration) {
      const frames = [{ transform: `translate(${fromX}px, ${fromY}px)` }, { transform: `translate(${x}px, ${y}px)` }];
      this.flying.push(element.animate(frames, { duration, easing: "ease-in-out" }));
    }

    /** A cell that an actor keeps goes into the actor's box, and is gone. */
    absorb(position, moves, duration) {
      const { queue: name } = Run.eventAt(this.run, position).took;
      const queue = this.run.queues.get(name);
      const taken = queue.stays[queue.rangeAt(position)[0] - 1];
      if (taken.next) return;
      const { node, kind } = this.run.network.places.get(name).to;
      const box = this.layout.boxes.get(node);
      const y = kind === "controller" ? box.y + BOX.router - 8 : switchTop(box) + box.height / 2;
      const cell = this.cellAt(taken, [box.x + BOX.width / 2, y], moves.get(taken), duration);
      this.layers.passing.append(cell);
      this.flying[this.flying.length - 1].onfinish = () => cell.remove();
    }

    /** Ends all that still moves. */
    land() {
      for (const animation of this.flying) animation.finish();
      this.flying = [];
      this.layers.passing.replaceChildren();
    }

    /** Labels, joins and sessions are drawn anew only where one began or ended. */
    showSpans(position) {
      const drawers = { labels: this.showLabels, joins: this.showJoins, sessions: this.showSessions };
      for (const [name, draw] of Object.entries(drawers)) {
        const epoch = this.run[name].epochAt(position);
        if (this.epochs[name] === epoch) continue;
        this.epochs[name] = epoch;
        draw.call(this, this.run[name].at(position));
      }
    }

    showLabels(labels) {
      const byLane = new Map();
      for (const label of labels) {
        const queue = Network.arrivingAt(this.run.network, label.node, label.port);
        if (!queue) continue;
        if (!byLane.has(queue)) byLane.set(queue, []);
        byLane.get(queue).push(label);
      }
      this.layers.tags.replaceChildren(...[...byLane].map(([queue, bound]) => this.tagOf(queue, bound)));
    }

    /** The labels of a lane, with their flows where there is room. */
    tagOf(queue, labels) {
      const lane = this.layout.lanes.get(queue);
      const hasRoom = this.layout.gap >= FLOW_GAP;
      const lines = labels.slice(0, MOST_TAGS).flatMap(({ channel, flow }) =>
        hasRoom ? [channel, ...Words.shortFlow(flow)] : [channel]);
      if (labels.length > MOST_TAGS) lines.push(`and ${Words.counted(labels.length - MOST_TAGS, "label")} more`);
      const [x, y] = pointOn(lane, lane.length / 2);
      const goesRight = lane.points[lane.points.length - 1][0] >= lane.points[0][0];
      const top = goesRight ? y + 20 : y - 12 - (lines.length - 1) * 13;
      const rows = lines.map((line, at) =>
        svg("tspan", { x, y: top + at * 13, class: line.includes("/") ? "label" : "flow" }, line));
      const titles = labels.map(({ node, port, channel, flow }) => `${channel} of ${node}:${port}: ${Words.flow(flow)}`);
      return svg("text", { class: "tag", "text-anchor": "middle" }, ...rows, svg("title", {}, titles.join("\n")));
    }

    showJoins(joins) {
      this.layers.joins.replaceChildren(...joins.map((join) => this.joinOf(join)));
    }

    /** A line through the switch, from port to port. */
    joinOf({ node, port, channel, toPort, toChannel }) {
      const [from, to] = [this.layout.ports.get(`${node}:${port}`), this.layout.ports.get(`${node}:${toPort}`)];
      if (!from || !to) return svg("g");
      const inward = (point) => (point.side === "left" ? point.x + 40 : point.x - 40);
      const d = `M${from.x} ${from.y}C${inward(from)} ${from.y} ${inward(to)} ${to.y} ${to.x} ${to.y}`;
      const title = `${channel} of ${node}:${port} joined to ${toChannel} of ${node}:${toPort}`;
      return svg("path", { class: "join", d }, svg("title", {}, title));
    }

    showSessions(sessions) {
      const open = new Set(sessions.map(({ node, port }) => `${node}:${port}`));
      const dots = [...this.layout.ports].map(([name, { x, y }]) => svg("circle", {
        cx: x, cy: y, r: 4.5, class: open.has(name) ? "session open" : "session",
      }, svg("title", {}, `${name} ${open.has(name) ? "may hand out labels" : "hands out no labels"}`)));
      this.layers.sessions.replaceChildren(...dots);
    }

    /** The event's actor, and what the event said, at its node. */
    showEvent(position, lost) {
      this.active?.classList.remove("active");
      this.active = null;
      this.layers.notes.replaceChildren();
      const event = Run.eventAt(this.run, position);
      if (!event) return;
      this.active = this.actors.get(Words.actorOf(this.run, event)?.id);
      this.active?.classList.add("active");
      const box = this.layout.boxes.get(Words.nodeOf(this.run, event));
      if (box) this.noteAt(box, event.says, lost);
    }

    /** What an event said stands above the router, at most three lines. */
    noteAt(box, says, lost) {
      const lines = says.length > 3 ? [...says.slice(0, 2), `and ${says.length - 2} lines more`] : says;
      const x = box.x + BOX.width / 2;
      const rows = lines.map((line, at) =>
        svg("tspan", { x, y: box.y - 8 - (lines.length - 1 - at) * 15 }, Words.brief(line)));
      const isBad = lost !== null || says.some((saying) => /^(loss|drop|bad|chance)/.test(saying));
      const look = { class: isBad ? "note bad" : "note", "text-anchor": "middle" };
      if (rows.length) this.layers.notes.append(svg("text", look, ...rows));
    }

    /** Marks the cells of the chosen packet or frame. */
    mark(key) {
      this.chosen = key;
      for (const cell of this.layers.cells.querySelectorAll(".cell")) {
        cell.classList.toggle("chosen", Run.keyOfMark(cell.getAttribute("data-mark")) === key);
      }
    }

    /** Where the event of the shown position happens, for a view that has to scroll there. */
    focusPoint() {
      const event = Run.eventAt(this.run, this.position);
      const box = event && this.layout.boxes.get(Words.nodeOf(this.run, event));
      return box ? [box.x + BOX.width / 2, switchTop(box)] : null;
    }
  }

  return { NetworkDrawing };
})();
