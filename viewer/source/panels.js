"use strict";

/** What stands beside the drawing: the event, the report, tables of what stands, and a packet's way. */
const Panels = (() => {
  const { html } = Elements;
  const byId = (id) => document.getElementById(id);

  /** The words whose lines are counted, and what their count is called. */
  const COUNTS = [["deliver", "delivered"], ["drop", "dropped"], ["refuse", "refused"], ["loss", "losses"]];

  class SidePanels {
    /**
     * @param {object} run
     * @param {(position: number) => void} go
     * @param {(key: string) => void} choose
     */
    constructor(run, go, choose) {
      Object.assign(this, { run, go, choose, key: null, epochs: {} });
      this.report = new RowList(byId("report"), "The report, line by line");
      this.labels = new RowList(byId("labels"), "Bound labels");
      this.joins = new RowList(byId("joins"), "Joins");
      this.queues = new RowList(byId("queues"), "Queues that hold cells");
      this.way = new RowList(byId("way"), "The way of the chosen packet");
    }

    show(position) {
      this.position = position;
      this.showEvent(position);
      this.showCounts(position);
      this.showReport(position);
      this.showSpans("labels", position, ({ node, port, channel, flow, from }) =>
        [`${node}:${port}`, channel, this.numberAt(from), Words.flow(flow), Words.timeToLive(flow)]);
      this.showSpans("joins", position, ({ node, port, channel, toPort, toChannel, from }) =>
        [`${node}:${port} ${channel}`, `${node}:${toPort} ${toChannel}`, this.numberAt(from)]);
      this.showQueues(position);
      this.showWay();
    }

    /** The number of the event behind which a position is, as text. */
    numberAt(position) {
      return String(Run.numberAt(this.run, position));
    }

    showEvent(position) {
      const event = Run.eventAt(this.run, position);
      byId("event-number").textContent = event ? `Event ${event.event}` : "Before the first event";
      byId("event-line").textContent = event ? `line ${event.line} of the script` : "";
      byId("event-words").textContent = event ? event.do : "";
      byId("event-sense").textContent = Words.explain(this.run, position);
      byId("event-frames").replaceChildren(...(event?.frames ?? []).map((frame) => this.frameRow(frame)));
      const says = position === Run.endOf(this.run) && this.run.last !== null
        ? [...(event?.says ?? []), this.run.last] : event?.says ?? [];
      byId("event-says").replaceChildren(...says.map((saying) => html("li", {}, saying)));
    }

    frameRow({ mark, text }) {
      const button = html("button", { type: "button", style: `border-color:${Cells.colourOf(mark)}` }, `${mark} ${text}`);
      button.addEventListener("click", () => this.choose(Run.keyOfMark(mark)));
      return html("li", {}, button);
    }

    showCounts(position) {
      const { run } = this;
      const counts = COUNTS.map(([word, name]) => [name, Run.countAt(run, word, position)]);
      const all = [["sent", Run.countUpTo(run.sends, position)], ...counts,
        ["labels", run.labels.countAt(position)], ["joins", run.joins.countAt(position)]];
      byId("counts").replaceChildren(...all.map(([name, count]) =>
        html("span", { "data-count": name }, `${name} `, html("b", {}, String(count)))));
    }

    showReport(position) {
      const { sayings } = this.run;
      const past = Run.countUpTo(this.run.sayingPositions, position);
      const row = (at) => ({
        cells: [this.numberAt(sayings[at].position), sayings[at].text],
        go: () => this.go(sayings[at].position), isAhead: at >= past,
      });
      this.report.set(sayings.length, row, past - 1);
    }

    /** The spans that stand, each by the texts of its columns. */
    showSpans(name, position, cellsOf) {
      const epoch = this.run[name].epochAt(position);
      if (this.epochs[name] === epoch) return;
      this.epochs[name] = epoch;
      const spans = this.run[name].at(position);
      this[name].set(spans.length, (at) => ({ cells: cellsOf(spans[at]), go: () => this.go(spans[at].from) }));
    }

    showQueues(position) {
      const held = [];
      for (const queue of this.run.queues.values()) {
        const length = queue.lengthAt(position);
        if (length) held.push([queue.name, Words.counted(length, "cell")]);
      }
      this.queues.set(held.length, (at) => ({ cells: held[at] }));
    }

    /** Shows the way of a packet, or of a frame of messages. */
    choosePacket(key) {
      this.key = key;
      this.steps = key === null ? [] : Ways.of(this.run, key);
      byId("packet").value = key !== null && !key.includes(".") ? key : "";
      const name = key?.includes(".") ? "frame" : "packet";
      byId("way-of").textContent = key === null ? "choose one by its number, or a cell" : `the way of ${name} ${key}`;
      this.showWay();
    }

    showWay() {
      const steps = this.steps ?? [];
      const past = steps.filter(({ from }) => from <= this.position).length;
      const row = (at) => ({
        cells: [this.numberAt(steps[at].from), steps[at].text], go: () => this.go(steps[at].from), isAhead: at >= past,
      });
      this.way.set(steps.length, row, past - 1);
    }
  }

  return { SidePanels };
})();
