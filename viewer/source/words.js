"use strict";

/** Texts of flows, and events in plain words. */
const Words = (() => {
  const octetsOf = (hex) => (hex.match(/../g) ?? []).map((digits) => parseInt(digits, 16));

  /** What a flow identifier says, or null where it is none: see docs/FORMATS.md. */
  function partsOfFlow(hex) {
    const octets = octetsOf(hex);
    if (octets.length !== 16 && octets.length !== 12) return null;
    const address = (at) => octets.slice(at, at + 4).join(".");
    const parts = { source: address(4), destination: address(8), timeToLive: octets[2] };
    if (octets.length === 12) return parts;
    const port = (at) => octets[at] * 256 + octets[at + 1];
    return {
      ...parts, tos: octets[1], protocol: octets[3],
      source: `${parts.source}:${port(12)}`, destination: `${parts.destination}:${port(14)}`,
    };
  }

  /** A flow, as a journal writes it of a frame. */
  function flow(hex) {
    const parts = partsOfFlow(hex);
    if (!parts) return hex;
    const { source, destination, protocol, tos, timeToLive } = parts;
    const behind = protocol === undefined ? "" : ` protocol ${protocol} tos ${tos}`;
    return `${source} > ${destination}${behind} ttl ${timeToLive}`;
  }

  /** A flow in two short lines, for the drawing. */
  function shortFlow(hex) {
    const parts = partsOfFlow(hex);
    return parts ? [`${parts.source} >`, `${parts.destination} ttl ${parts.timeToLive}`] : [hex];
  }

  /** The Time To Live of a flow, which tells the flows of one way apart. */
  const timeToLive = (hex) => String(partsOfFlow(hex)?.timeToLive ?? "");

  const actor = ({ kind, node }) => `the ${kind} of ${node}`;

  /** What becomes of the cell that an event carries. */
  function carried(run, event) {
    const place = run.network.places.get(event.took.queue);
    const onward = event.put.find((cell) => cell.mark === event.took.mark);
    const cause = event.says.find((saying) => saying.startsWith(`loss ${event.took.mark} `))?.split(" ")[2];
    const whither = `The first cell of ${place.name} comes to ${actor(place.to)}`;
    if (onward) return `${whither}, which passes it on to ${onward.queue} on channel ${onward.channel}.`;
    if (cause) return `${whither}. Its frame may be gone: ${cause}.`;
    if (!event.took.last) return `${whither}, which waits for the rest of the frame.`;
    return `${whither}. With it the frame ends there.`;
  }

  /** Each kind of event by its first word, of the words behind it. */
  const EVENTS = {
    send: (run, event, [node], position) => `The controller of ${node} is given packet ${Run.countUpTo(run.sends, position)}.`,
    carry: carried,
    lose: (run, event, [queue]) => `The first cell of ${queue} is lost.`,
    tick: (run, event, [node]) => `A tick of the controller of ${node}.`,
    tickswitch: (run, event, [node]) => `A tick of the switch of ${node}.`,
    restart: (run, event, [node]) => `The controller of ${node} starts anew.`,
    restartswitch: (run, event, [node]) => `The switch of ${node} starts anew.`,
    forge: (run, event, [queue, channel]) => `The cells of a frame that nobody made join ${queue} on channel ${channel}.`,
    setroute: (run, event, [node, prefix, ...way]) => `The route of ${node} for ${prefix} is to become ${way.join(" ")}.`,
    unroute: (run, event, [node, prefix]) => `The route of ${node} for ${prefix} is to go.`,
  };

  /** The event behind which a position is, in one sentence. */
  function explain(run, position) {
    const event = Run.eventAt(run, position);
    if (!event) return "The network opens.";
    const [word, ...others] = event.do.split(" ");
    const needsCell = word === "carry" && event.took === null;
    return EVENTS[word] && !needsCell ? EVENTS[word](run, event, others, position) : "";
  }

  /** The actor that an event is an event of: the one that acts, or to which a cell comes. */
  function actorOf(run, event) {
    const [word, name] = event.do.split(" ");
    const { actors, places } = run.network;
    if (word === "carry") return places.get(name)?.to ?? null;
    if (word === "tickswitch" || word === "restartswitch") return actors.get(`switch ${name}`) ?? null;
    return actors.get(`controller ${name}`) ?? null;
  }

  /** The node at which an event happens: of a cell that is lost or forged, the one whose queue it is. */
  function nodeOf(run, event) {
    const queue = event.do.split(" ")[1];
    return (actorOf(run, event) ?? run.network.places.get(queue)?.from)?.node ?? null;
  }

  /** A line of a report without its octets. */
  const brief = (saying) => saying.split(" ").filter((word) => word.length <= 20).join(" ");

  /** "1 cell", "2 cells" */
  const counted = (count, noun) => `${count} ${noun}${count === 1 ? "" : "s"}`;

  return { flow, shortFlow, timeToLive, explain, actorOf, nodeOf, brief, counted };
})();
