"use strict";

/** The way of a packet, or of one frame of messages: every queue that its cells stood in, and how it ended. */
const Ways = (() => {
  /**
   * @typedef {object} Step
   * @property {number} from  the position at which it begins
   * @property {string} text
   */

  /** The cells of a frame by the queue and the channel in which they stood. */
  function stretchesOf(frame) {
    const stretches = new Map();
    for (const stay of frame.stays) {
      const key = `${stay.queue} ${stay.channel}`;
      if (!stretches.has(key)) stretches.set(key, []);
      stretches.get(key).push(stay);
    }
    return [...stretches.values()];
  }

  function stretchStep(run, frame, stays) {
    const { queue, channel, from } = stays[0];
    const until = Math.max(...stays.map((stay) => stay.until));
    const lost = stays.filter((stay) => stay.isLost).length;
    const ending = until <= Run.endOf(run) ? `until event ${Run.numberAt(run, until)}` : "until the end";
    const text = `${frame.mark} in ${queue} on ${channel}: ${Words.counted(stays.length, "cell")}, ${ending}`;
    return { from, text: lost ? `${text}, ${lost} lost` : text };
  }

  /** The steps of a packet, in the order in which they begin. */
  function of(run, key) {
    const steps = [];
    for (const frame of run.framesOf.get(key) ?? []) {
      const ending = frame.stays.length ? "is made" : "is made and finds no slots";
      steps.push({ from: frame.from, text: `${frame.mark} ${ending}: ${frame.text}` });
      for (const stays of stretchesOf(frame)) steps.push(stretchStep(run, frame, stays));
    }
    for (const { position, text } of run.sayingsOf.get(key) ?? []) {
      steps.push({ from: position, text });
    }
    return steps.sort((one, other) => one.from - other.from);
  }

  return { of };
})();
