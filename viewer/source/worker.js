"use strict";

/** A worker of the page: runs commands over a script, one after the other, and tells what each gives. */
onmessage = ({ data: { module, script, commands } }) => {
  const MOST_MEMORY = 2 ** 30;
  const input = new TextEncoder().encode(script);
  let room = 2 ** 20;
  for (const command of commands) {
    let answer = Library.run(module, command, input, room, MOST_MEMORY);
    if (answer.status === 4) {
      room = answer.count;
      answer = Library.run(module, command, input, room, MOST_MEMORY);
    }
    postMessage({ command, status: answer.status, text: new TextDecoder().decode(answer.output) });
  }
};
