"use strict";

/**
 * Where everything of a network is drawn. The nodes stand in layers, left to right, by their distance from the first
 * node; what can't be reached from it begins anew below. Within its layer a node stands where few lines cross.
 */
const Layout = (() => {
  /**
   * @typedef {[number, number]} Point
   *
   * @typedef {object} NodeBox  A router above a switch.
   * @property {string} name
   * @property {string} address
   * @property {number} x       of its left edge
   * @property {number} y       of the router's upper edge
   * @property {number} height  of the switch
   *
   * @typedef {object} Lane  Where the cells of a queue stand: the first one at the end of the way.
   * @property {string} queue
   * @property {Point[]} points
   * @property {number} length
   */

  const BOX = { width: 112, router: 46, control: 66, port: 30, leastSwitch: 44 };
  const ROW_GAP = 56;

  /** The least room between two layers in which a label's flow can be written. */
  const FLOW_GAP = 132;
  const MARGIN = 70;
  const LANE_OFFSET = 7;
  const SWEEPS = 12;

  /** The neighbours of each node, once for each link. */
  function neighboursOf(network) {
    const neighbours = new Map(network.nodes.map(({ name }) => [name, []]));
    for (const { ends: [one, other] } of network.links) {
      neighbours.get(one.node).push(other.node);
      neighbours.get(other.node).push(one.node);
    }
    return neighbours;
  }

  /** The nodes that can be reached from the first, in layers by distance. */
  function layersFrom(first, neighbours, seen) {
    const layers = [];
    let layer = [first];
    seen.add(first);
    while (layer.length) {
      layers.push(layer);
      const next = [];
      for (const neighbour of layer.flatMap((name) => neighbours.get(name))) {
        if (seen.has(neighbour)) continue;
        seen.add(neighbour);
        next.push(neighbour);
      }
      layer = next;
    }
    return layers;
  }

  /** How often the links of two neighbouring layers, of which one is ordered anew, cross. */
  function crossings(layer, places, neighbours) {
    let count = 0;
    const before = [];
    for (const name of layer) {
      const ends = neighbours.get(name).filter((other) => places.has(other)).map((other) => places.get(other));
      for (const end of ends) count += before.filter((earlier) => earlier > end).length;
      before.push(...ends);
    }
    return count;
  }

  /** How far apart the ends of links within a layer stand. */
  function spread(layer, neighbours) {
    const places = new Map(layer.map((name, at) => [name, at]));
    let sum = 0;
    for (const name of layer) {
      for (const other of neighbours.get(name)) {
        if (places.has(other)) sum += Math.abs(places.get(other) - places.get(name)) - 1;
      }
    }
    return sum;
  }

  const placesIn = (layer) => new Map((layer ?? []).map((name, at) => [name, at]));

  /** Exchanges neighbours of a layer as long as that makes fewer crossings. */
  function settle(layers, at, neighbours) {
    const [before, behind] = [placesIn(layers[at - 1]), placesIn(layers[at + 1])];
    const cost = (layer) =>
      crossings(layer, before, neighbours) + crossings(layer, behind, neighbours) + spread(layer, neighbours);
    let best = cost(layers[at]);
    for (let one = 0; one + 1 < layers[at].length; one++) {
      const tried = [...layers[at]];
      [tried[one], tried[one + 1]] = [tried[one + 1], tried[one]];
      const found = cost(tried);
      if (found >= best) continue;
      best = found;
      layers[at] = tried;
      one = Math.max(-1, one - 2);
    }
  }

  /** Orders a layer by the middle of each node's neighbours in the layer beside it. */
  function orderBy(layers, at, beside, neighbours) {
    const places = placesIn(layers[beside]);
    const middle = (name, own) => {
      const ends = neighbours.get(name).filter((other) => places.has(other)).map((other) => places.get(other));
      return ends.length ? ends.reduce((sum, end) => sum + end, 0) / ends.length : own;
    };
    const keys = new Map(layers[at].map((name, own) => [name, middle(name, own)]));
    layers[at] = [...layers[at]].sort((one, other) => keys.get(one) - keys.get(other));
  }

  function untangle(layers, neighbours) {
    for (let sweep = 0; sweep < SWEEPS; sweep++) {
      for (let at = 1; at < layers.length; at++) orderBy(layers, at, at - 1, neighbours);
      for (let at = layers.length - 2; at >= 0; at--) orderBy(layers, at, at + 1, neighbours);
    }
    for (let sweep = 0; sweep < SWEEPS; sweep++) layers.forEach((_, at) => settle(layers, at, neighbours));
  }

  /** The nodes' layers and places in them, part by part of the network. */
  function ranked(network) {
    const neighbours = neighboursOf(network);
    const seen = new Set();
    const parts = [];
    for (const { name } of network.nodes) {
      if (seen.has(name)) continue;
      const layers = layersFrom(name, neighbours, seen);
      untangle(layers, neighbours);
      parts.push(layers);
    }
    return parts;
  }

  /** How high a node's switch has to be for its ports, which stand on the side of the neighbours. */
  function switchHeights(network, layerOf) {
    const counts = new Map(network.nodes.map(({ name }) => [name, { left: 0, right: 0 }]));
    for (const { ends } of network.links) {
      for (const [own, other] of [ends, [...ends].reverse()]) counts.get(own.node)[sideOf(own, other, layerOf)]++;
    }
    const height = ({ left, right }) => Math.max(BOX.leastSwitch, BOX.port * Math.max(left, right) + 8);
    return new Map([...counts].map(([name, count]) => [name, height(count)]));
  }

  /** A port stands on the side of its neighbour; where both are in one layer, on the right. */
  function sideOf(own, other, layerOf) {
    return layerOf.get(other.node) < layerOf.get(own.node) ? "left" : "right";
  }

  const layerMap = (parts) => new Map(parts.flatMap((layers) => layers.flatMap((layer, at) => layer.map((name) => [name, at]))));

  /** The room between two layers, less where there are many. */
  function gapOf(parts) {
    const most = Math.max(...parts.map((layers) => layers.length));
    if (most <= 4) return 220;
    return most <= 8 ? FLOW_GAP : 110;
  }

  /** Places the nodes of one part, each layer in the middle of the part's height. */
  function placePart(layers, top, gap, heights, addresses, boxes) {
    const whole = (name) => BOX.router + BOX.control + heights.get(name);
    const heightOf = (layer) => layer.reduce((sum, name) => sum + whole(name) + ROW_GAP, -ROW_GAP);
    const most = Math.max(...layers.map(heightOf));
    layers.forEach((layer, at) => {
      let y = top + (most - heightOf(layer)) / 2;
      for (const name of layer) {
        const x = MARGIN + at * (BOX.width + gap);
        boxes.set(name, { name, address: addresses.get(name), x, y, height: heights.get(name) });
        y += whole(name) + ROW_GAP;
      }
    });
    return most;
  }

  const switchTop = (box) => box.y + BOX.router + BOX.control;

  /** The point of each port at the edge of its switch, ordered as its neighbours are. */
  function portsOf(network, layerOf, boxes) {
    const sides = new Map();
    network.links.forEach(({ ends }, link) => {
      for (const [own, other] of [ends, [...ends].reverse()]) {
        const side = sideOf(own, other, layerOf);
        const key = `${own.node} ${side}`;
        if (!sides.has(key)) sides.set(key, { box: boxes.get(own.node), side, ports: [] });
        sides.get(key).ports.push({ name: `${own.node}:${own.port}`, order: boxes.get(other.node).y, link });
      }
    });
    const points = new Map();
    for (const { box, side, ports } of sides.values()) {
      ports.sort((one, other) => one.order - other.order || one.link - other.link);
      const x = side === "left" ? box.x : box.x + BOX.width;
      const pitch = box.height / ports.length;
      ports.forEach(({ name }, at) => points.set(name, { x, y: switchTop(box) + pitch * (at + 0.5), side }));
    }
    return points;
  }

  /** A curve from port to port; a straight line but for neighbours in one layer. */
  function wayBetween(from, to) {
    if (from.side !== to.side) return [[from.x, from.y], [to.x, to.y]];
    const bulge = from.x + 46 + Math.abs(from.y - to.y) / 14;
    const points = [];
    for (let step = 0; step <= 16; step++) {
      const t = step / 16;
      const [a, b, c, d] = [(1 - t) ** 3, 3 * t * (1 - t) ** 2, 3 * t * t * (1 - t), t ** 3];
      points.push([a * from.x + (b + c) * bulge + d * to.x, (a + b) * from.y + (c + d) * to.y]);
    }
    return points;
  }

  /** The way moved to its right-hand side, so that the two lanes of a link lie beside one another. */
  function besides(points, offset) {
    return points.map(([x, y], at) => {
      const [fromX, fromY] = points[Math.max(0, at - 1)];
      const [toX, toY] = points[Math.min(points.length - 1, at + 1)];
      const length = Math.hypot(toX - fromX, toY - fromY) || 1;
      return [x - ((toY - fromY) / length) * offset, y + ((toX - fromX) / length) * offset];
    });
  }

  function lengthOf(points) {
    let length = 0;
    for (let at = 1; at < points.length; at++) {
      length += Math.hypot(points[at][0] - points[at - 1][0], points[at][1] - points[at - 1][1]);
    }
    return length;
  }

  function laneOf(place, boxes, ports) {
    const box = boxes.get(place.from.node);
    const [router, top, middle] = [box.y + BOX.router, switchTop(box), box.x + BOX.width / 2];
    let points;
    if (place.name.endsWith(":c")) points = [[middle - 16, router], [middle - 16, top]];
    else if (place.fromPort === 0) points = [[middle + 16, top], [middle + 16, router]];
    else {
      const end = `${place.to.node}:${place.toPort}`;
      points = besides(wayBetween(ports.get(place.name), ports.get(end)), LANE_OFFSET);
    }
    return { queue: place.name, points, length: lengthOf(points) };
  }

  /** The point of a lane at this distance from its end. */
  function pointOn(lane, distance) {
    let left = distance;
    for (let at = lane.points.length - 1; at > 0; at--) {
      const [[x, y], [fromX, fromY]] = [lane.points[at], lane.points[at - 1]];
      const length = Math.hypot(x - fromX, y - fromY);
      if (left <= length || at === 1) return [x + ((fromX - x) * left) / (length || 1), y + ((fromY - y) * left) / (length || 1)];
      left -= length;
    }
    return lane.points[0];
  }

  function of(network) {
    const parts = ranked(network);
    const layerOf = layerMap(parts);
    const heights = switchHeights(network, layerOf);
    const addresses = new Map(network.nodes.map(({ name, address }) => [name, address]));
    const gap = parts.length ? gapOf(parts) : 0;
    const boxes = new Map();
    let top = MARGIN;
    for (const layers of parts) top += placePart(layers, top, gap, heights, addresses, boxes) + ROW_GAP;
    const ports = portsOf(network, layerOf, boxes);
    const lanes = new Map([...network.places.values()].map((place) => [place.name, laneOf(place, boxes, ports)]));
    const right = Math.max(0, ...[...boxes.values()].map((box) => box.x + BOX.width));
    return { boxes, ports, lanes, gap, width: right + MARGIN, height: top - ROW_GAP + MARGIN };
  }

  return { of, pointOn, switchTop, BOX, FLOW_GAP };
})();
