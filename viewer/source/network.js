"use strict";

/**
 * The network that a journal's first line tells of: its nodes, its links, and the queue of each direction in which
 * cells go.
 */
const Network = (() => {
  /**
   * @typedef {object} Actor  A controller or a switch.
   * @property {string} id    as "controller a"
   * @property {string} kind  "controller" or "switch"
   * @property {string} node
   *
   * @typedef {object} Place  A queue, from one actor to another.
   * @property {string} name  as "a:1"
   * @property {Actor} from
   * @property {Actor} to
   * @property {number} fromPort  the switch's port that it leaves by; 0 on the control link
   * @property {number} toPort    the switch's port that it comes in at; 0 on the control link
   *
   * @typedef {object} Link  A link between two ports, each "NODE:PORT".
   * @property {{node: string, port: number}[]} ends
   *
   * @typedef {object} NetworkModel
   * @property {number} version
   * @property {{name: string, address: string}[]} nodes
   * @property {Link[]} links
   * @property {Map<string, Actor>} actors
   * @property {Map<string, Place>} places  by their names, in the order of queues
   */

  /** The node and the port of "a:1". */
  function endOf(text) {
    const [node, port] = text.split(":");
    return { node, port: Number(port) };
  }

  function actorsOf(nodes) {
    const actors = new Map();
    for (const { name } of nodes) {
      for (const kind of ["controller", "switch"]) {
        const id = `${kind} ${name}`;
        actors.set(id, { id, kind, node: name });
      }
    }
    return actors;
  }

  /** The other end of each linked port, by the port's name. */
  function peersOf(links) {
    const peers = new Map();
    for (const { ends: [one, other] } of links) {
      peers.set(`${one.node}:${one.port}`, other);
      peers.set(`${other.node}:${other.port}`, one);
    }
    return peers;
  }

  function placesOf(nodes, peers, actors) {
    const places = new Map();
    const add = (name, from, to, fromPort, toPort) =>
      places.set(name, { name, from: actors.get(from), to: actors.get(to), fromPort, toPort });
    for (const { name } of nodes) {
      add(`${name}:c`, `controller ${name}`, `switch ${name}`, 0, 0);
      add(`${name}:0`, `switch ${name}`, `controller ${name}`, 0, 0);
      for (let port = 1; port <= 8; port++) {
        const peer = peers.get(`${name}:${port}`);
        if (peer) add(`${name}:${port}`, `switch ${name}`, `switch ${peer.node}`, port, peer.port);
      }
    }
    return places;
  }

  /** @returns {NetworkModel} */
  function of(header) {
    const links = header.links.map((ends) => ({ ends: ends.map(endOf) }));
    const actors = actorsOf(header.nodes);
    const places = placesOf(header.nodes, peersOf(links), actors);
    return { version: header.version, nodes: header.nodes, links, actors, places };
  }

  /** The queue whose cells come in at this port of a node. */
  function arrivingAt(network, node, port) {
    for (const { ends: [one, other] } of network.links) {
      if (one.node === node && one.port === port) return `${other.node}:${other.port}`;
      if (other.node === node && other.port === port) return `${one.node}:${one.port}`;
    }
    return null;
  }

  return { of, arrivingAt };
})();
