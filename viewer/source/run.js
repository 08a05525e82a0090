"use strict";

/**
 * What a journal's run holds at each of its positions. Position 0 is the network as it opens, position P the network
 * behind the P-th event of the journal. Each cell, label and join has the positions from and until which it stands, so
 * what stands at a position is looked up, and a step back is as exact as a step forward.
 */
const Run = (() => {
  /**
   * @typedef {object} Stay  One cell in one queue.
   * @property {string} queue
   * @property {string} channel
   * @property {string} mark
   * @property {boolean} last
   * @property {number} from
   * @property {number} until  Infinity where no event took it
   * @property {boolean} isLost  whether it was lost where it stood
   * @property {Stay|null} next  the same cell in the queue to which a switch passed it on
   *
   * @typedef {object} Frame
   * @property {string} mark
   * @property {string} text
   * @property {number} from  the position of the event that made it
   * @property {number} place  among the frames that the event made, from 0
   * @property {boolean} isForged
   * @property {Stay[]} stays  of all its cells, in the order in which they began
   * @property {Stay|null} lastCell  where its last cell stood first; null where it found no slots
   *
   * @typedef {object} Span  A label from its binding on, a join, or a port's session.
   * @property {string} node
   * @property {number} port
   * @property {string} [channel]
   * @property {string} [flow]
   * @property {number} [toPort]
   * @property {string} [toChannel]
   * @property {number} from
   * @property {number} until
   */

  /** Causes of a loss that befall one cell; of the others the whole frame is told. */
  const CELL_CAUSES = new Set(["Lost", "Unconnected", "Unbound", "PoolFull"]);

  const asIs = (number) => number;

  /** How many of the values, ascending by their keys, have a key of at most the limit. */
  function countUpTo(values, limit, keyOf = asIs, end = values.length) {
    let low = 0;
    let high = end;
    while (low < high) {
      const middle = (low + high) >> 1;
      if (keyOf(values[middle]) <= limit) low = middle + 1;
      else high = middle;
    }
    return low;
  }

  /** The cells of one queue over the whole run; those that stand in it at a position are neighbours here. */
  class Queue {
    constructor(name) {
      this.name = name;
      this.stays = [];
      this.taken = 0;
    }

    /** Whether this cell is the first one. */
    isFirst({ channel, mark, last }) {
      const stay = this.stays[this.taken];
      return stay !== undefined && stay.channel === channel && stay.mark === mark && stay.last === last;
    }

    take(position) {
      const stay = this.stays[this.taken++];
      stay.until = position;
      return stay;
    }

    /** The cells at a position, first to last, as a range of `stays`. */
    rangeAt(position) {
      const head = countUpTo(this.stays, position, ({ until }) => until, this.taken);
      return [head, countUpTo(this.stays, position, ({ from }) => from)];
    }

    lengthAt(position) {
      const [head, end] = this.rangeAt(position);
      return end - head;
    }

    cellsAt(position) {
      return this.stays.slice(...this.rangeAt(position));
    }
  }

  /** Spans of one kind, in the order in which they begin. */
  class Spans {
    constructor() {
      this.all = [];
      this.begins = [];
      this.ends = [];
      this.standing = new Map();
    }

    begin(key, span) {
      this.end(key, span.from);
      const whole = { ...span, until: Infinity };
      this.all.push(whole);
      this.standing.set(key, whole);
      this.begins.push(span.from);
    }

    end(key, position) {
      const span = this.standing.get(key);
      if (!span) return;
      span.until = position;
      this.standing.delete(key);
      this.ends.push(position);
    }

    endWhere(test, position) {
      for (const [key, span] of this.standing) if (test(span)) this.end(key, position);
    }

    /** A number that is the same at two positions exactly where no span begins or ends between them. */
    epochAt(position) {
      return countUpTo(this.begins, position) + countUpTo(this.ends, position);
    }

    countAt(position) {
      return countUpTo(this.begins, position) - countUpTo(this.ends, position);
    }

    at(position) {
      return this.all.filter((span) => span.from <= position && position < span.until);
    }
  }

  const labelOf = (word) => (word.includes("/") ? word : `0/${word}`);

  /** What each word of a report begins and ends. The words behind it are the arguments. */
  const SAYINGS = {
    bind(run, position, [node, port, label, flow]) {
      const channel = labelOf(label);
      run.labels.begin(`${node}:${port} ${channel}`, { node, port: Number(port), channel, flow, from: position });
    },
    free(run, position, [node, port, label]) {
      run.labels.end(`${node}:${port} ${labelOf(label)}`, position);
    },
    join(run, position, [node, port, label, toPort, toLabel]) {
      const [channel, toChannel] = [labelOf(label), labelOf(toLabel)];
      const span = { node, port: Number(port), channel, toPort: Number(toPort), toChannel, from: position };
      run.joins.begin(`${node}:${port} ${channel}`, span);
    },
    part(run, position, [node, port, label]) {
      run.joins.end(`${node}:${port} ${labelOf(label)}`, position);
    },
    open(run, position, [node, port]) {
      const touches = (span) => span.node === node && (span.port === Number(port) || span.toPort === Number(port));
      run.joins.endWhere(touches, position);
      run.sessions.begin(`${node}:${port}`, { node, port: Number(port), from: position });
    },
    close(run, position, [node, port]) {
      run.sessions.end(`${node}:${port}`, position);
      run.labels.endWhere((span) => span.node === node && span.port === Number(port), position);
    },
  };

  /** The node whose controller has lost all its joins in the event: it was restarted, or closed its ports and sent nothing. */
  function resetNode(event) {
    if (event.do.startsWith("restart ")) return event.do.split(" ")[1];
    if (event.frames.length) return null;
    return event.says.find((saying) => saying.startsWith("close "))?.split(" ")[1] ?? null;
  }

  /** The packet that a line of a report, or a frame, tells of, and the frame itself where it is one of messages. */
  function keyOfMark(mark) {
    return mark.startsWith("0.") ? mark : mark.slice(0, mark.indexOf("."));
  }

  function keyOfSaying(words) {
    if (words[0] === "loss" || words[0] === "chance") return keyOfMark(words[1]);
    return ["deliver", "drop", "refuse"].includes(words[0]) ? words[2] : null;
  }

  function listed(map, key) {
    if (!map.has(key)) map.set(key, []);
    return map.get(key);
  }

  function noteSayings(run, event, position) {
    for (const text of event.says) {
      const words = text.split(" ");
      const saying = { position, text, key: keyOfSaying(words) };
      run.sayings.push(saying);
      run.sayingPositions.push(position);
      listed(run.positionsOf, words[0]).push(position);
      if (saying.key !== null) listed(run.sayingsOf, saying.key).push(saying);
      SAYINGS[words[0]]?.(run, position, words.slice(1));
    }
    const node = resetNode(event);
    if (node !== null) run.joins.endWhere((span) => span.node === node, position);
  }

  function isLossOf(saying, mark) {
    const [word, lost, cause] = saying.split(" ");
    return word === "loss" && lost === mark && CELL_CAUSES.has(cause);
  }

  /** An event has to follow from those before it. */
  function needSequel(run, { took, put, frames }) {
    if (took && !run.queues.get(took.queue)?.isFirst(took)) Reading.refuse(`\`took\` isn't the first cell of ${took.queue}`);
    for (const { queue, mark } of put) {
      if (!run.queues.has(queue)) Reading.refuse(`there is no queue ${queue}`);
      const isMade = run.frameOf.has(mark) || frames.some((frame) => frame.mark === mark);
      if (!isMade) Reading.refuse(`no frame ${mark} was made`);
    }
  }

  function takeCell(run, event, position) {
    const cell = event.took;
    if (cell === null) return null;
    const stay = run.queues.get(cell.queue).take(position);
    stay.isLost = event.says.some((saying) => isLossOf(saying, cell.mark));
    return stay;
  }

  function makeFrames(run, event, position) {
    const isForged = event.do.startsWith("forge ");
    for (const [place, { mark, text }] of event.frames.entries()) {
      const frame = { mark, text, from: position, place, isForged, stays: [], lastCell: null };
      run.frames.push(frame);
      run.frameOf.set(mark, frame);
      listed(run.framesOf, keyOfMark(mark)).push(frame);
    }
  }

  function putCells(run, event, position, taken) {
    for (const { queue, channel, mark, last } of event.put) {
      const frame = run.frameOf.get(mark);
      const stay = { queue, channel, mark: frame.mark, last, from: position, until: Infinity, isLost: false, next: null };
      run.queues.get(queue).stays.push(stay);
      frame.stays.push(stay);
      if (taken && taken.mark === mark) taken.next = stay;
      else if (last) frame.lastCell = stay;
    }
  }

  function apply(run, event) {
    const position = run.numbers.push(event.event);
    const taken = takeCell(run, event, position);
    makeFrames(run, event, position);
    putCells(run, event, position, taken);
    noteSayings(run, event, position);
    if (event.do.startsWith("send ")) run.sends.push(position);
    run.rows.push(Math.max(1 + event.says.length, event.frames.length));
  }

  function opened(header, lines) {
    const network = Network.of(header);
    const queues = new Map([...network.places.keys()].map((name) => [name, new Queue(name)]));
    return {
      network, queues, lines, numbers: [], rows: [], last: null,
      labels: new Spans(), joins: new Spans(), sessions: new Spans(),
      frames: [], frameOf: new Map(), framesOf: new Map(),
      sayings: [], sayingPositions: [], sayingsOf: new Map(), positionsOf: new Map(), sends: [],
    };
  }

  function readLine(run, line) {
    if (run.last !== null) Reading.refuse("a line stands behind the last one");
    const value = Reading.value(line, run.numbers[run.numbers.length - 1] ?? 0);
    if (value.took === undefined) {
      run.last = value.end ?? value.refused;
      return;
    }
    needSequel(run, value);
    apply(run, value);
  }

  /**
   * The run of a journal's text. Where a line isn't one of a journal, or doesn't follow from those before, `fault` says
   * so, and the run ends in front of this line; there is none where it is the first line.
   * @param {string} text
   * @returns {{run: object|null, fault: {line: number, text: string}|null}}
   */
  function of(text) {
    const lines = Reading.linesOf(text);
    let run = null;
    let at = 0;
    try {
      run = opened(Reading.header(lines[0]), lines);
      for (at = 1; at < lines.length; at++) readLine(run, lines[at]);
      if (run.last === null) Reading.refuse("the last line, `end` or `refused`, is missing");
      return { run, fault: null };
    } catch (error) {
      if (!(error instanceof Reading.Fault)) throw error;
      return { run, fault: { line: at + 1, text: error.message } };
    }
  }

  /** The last position of a run. */
  const endOf = (run) => run.numbers.length;

  /** The number of the event behind which a position is; 0 at the opening. */
  const numberAt = (run, position) => run.numbers[position - 1] ?? 0;

  /**
   * The event behind which a position is, read again from its line; none at the opening.
   * @returns {JournalEvent|null}
   */
  const eventAt = (run, position) => (position === 0 ? null : JSON.parse(run.lines[position]));

  /** How many lines with this first word the report has at a position. */
  const countAt = (run, word, position) => countUpTo(run.positionsOf.get(word) ?? [], position);

  /** The position behind the event with this number, or behind the last one before it. */
  const positionOf = (run, number) => countUpTo(run.numbers, number);

  /** The first position behind this one at which the report has a new line, and the last one before it. */
  const nextSaying = (run, position) => run.sayingPositions[countUpTo(run.sayingPositions, position)] ?? null;
  const previousSaying = (run, position) => run.sayingPositions[countUpTo(run.sayingPositions, position - 1) - 1] ?? null;

  return { of, endOf, eventAt, numberAt, countAt, positionOf, nextSaying, previousSaying, keyOfMark, countUpTo };
})();
