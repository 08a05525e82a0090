"use strict";

/** Reads a journal line by line; each line has to have the shape that docs/JOURNAL.md gives it. */
const Reading = (() => {
  /**
   * @typedef {object} JournalCell
   * @property {string} queue
   * @property {string} channel
   * @property {string} mark
   * @property {boolean} last
   *
   * @typedef {object} JournalEvent
   * @property {number} event
   * @property {number} line
   * @property {string} do
   * @property {JournalCell|null} took
   * @property {{mark: string, text: string}[]} frames
   * @property {JournalCell[]} put
   * @property {string[]} says
   *
   * @typedef {object} JournalEnd
   * @property {string} [end]      the last line of the report
   * @property {string} [refused]  the same, where a line of the script is refused
   */

  /** Why a line isn't one of a journal. */
  class Fault extends Error {}

  const NAME = /^[a-z][a-z0-9]{0,15}$/;
  const END = /^[a-z][a-z0-9]{0,15}:[1-8]$/;
  const CHANNEL = /^\d+\/\d+$/;
  const MARK = /^\d+\.\d+$/;

  function refuse(text) {
    throw new Fault(text);
  }

  function need(holds, text) {
    if (!holds) refuse(text);
  }

  const isCount = (value) => Number.isSafeInteger(value) && value >= 0;
  const matches = (pattern, value) => typeof value === "string" && pattern.test(value);

  function parse(line) {
    let value;
    try {
      value = JSON.parse(line);
    } catch {
      refuse("this is no JSON value");
    }
    need(value !== null && typeof value === "object" && !Array.isArray(value), "this is no JSON object");
    return value;
  }

  function needNodes(nodes) {
    need(Array.isArray(nodes), "`nodes` has to be an array");
    need(nodes.length <= 64, "there are more than 64 nodes");
    const names = new Set();
    for (const node of nodes) {
      need(node && matches(NAME, node.name) && typeof node.address === "string", "a node has a `name` and an `address`");
      need(!names.has(node.name), `two nodes have the name ${node.name}`);
      names.add(node.name);
    }
    return names;
  }

  function needLinks(links, names) {
    need(Array.isArray(links), "`links` has to be an array");
    const taken = new Set();
    for (const link of links) {
      const isLink = Array.isArray(link) && link.length === 2 && link.every((end) => matches(END, end));
      need(isLink, "a link is two ports, as [\"a:1\",\"b:1\"]");
      for (const end of link) {
        need(names.has(end.split(":")[0]), `${end} is a port of no node`);
        need(!taken.has(end), `the port ${end} has two links`);
        taken.add(end);
      }
      need(link[0].split(":")[0] !== link[1].split(":")[0], `the link of ${link[0]} is between two ports of one node`);
    }
  }

  /** The value of a journal's first line. */
  function header(line) {
    need(line !== undefined, "the file is empty: a journal begins with its network");
    const value = parse(line);
    need(value.version === 1 || value.version === 2, "`version` has to be 1 or 2: a journal begins with its network");
    needLinks(value.links, needNodes(value.nodes));
    return value;
  }

  /** Of what the run looks up, the queue and the mark, the form isn't tested. */
  function needCell(cell) {
    const isCell = cell !== null && typeof cell === "object" && typeof cell.queue === "string" &&
      matches(CHANNEL, cell.channel) && typeof cell.mark === "string" && typeof cell.last === "boolean";
    need(isCell, "a cell has a `queue`, a `channel`, a `mark` and `last`");
  }

  function needFrame(frame) {
    need(frame && matches(MARK, frame.mark) && typeof frame.text === "string", "a frame has a `mark` and a `text`");
  }

  function needEvent(event, previous) {
    if (!isCount(event.event) || event.event <= previous) refuse(`\`event\` has to be a number above ${previous}`);
    need(isCount(event.line), "`line` has to be a number");
    need(typeof event.do === "string", "`do` has to be a text");
    need(event.took !== undefined, "`took` is missing");
    if (event.took !== null) needCell(event.took);
    const hasLists = Array.isArray(event.frames) && Array.isArray(event.put) && Array.isArray(event.says);
    need(hasLists, "`frames`, `put` and `says` have to be arrays");
    for (const frame of event.frames) needFrame(frame);
    for (const cell of event.put) needCell(cell);
    for (const saying of event.says) need(typeof saying === "string", "`says` has to be an array of texts");
  }

  /**
   * The value of a line behind the first.
   * @param {string} line
   * @param {number} previous  the number of the event before
   * @returns {JournalEvent|JournalEnd}
   */
  function value(line, previous) {
    const found = parse(line);
    const last = found.end ?? found.refused;
    if (last === undefined) needEvent(found, previous);
    else need(typeof last === "string", "the last line has to be a text");
    return found;
  }

  /** The lines of a journal, without their ends. */
  function linesOf(text) {
    const lines = text.split("\n");
    if (lines[lines.length - 1] === "") lines.pop();
    return lines;
  }

  return { Fault, refuse, linesOf, header, value };
})();
