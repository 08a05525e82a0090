"use strict";

/**
 * The script beside the picture, replayed as one types: in a page that has the library in it (viewer/build). In a page without
 * it there is no editor.
 */
const Lab = (() => {
  const byId = (id) => document.getElementById(id);
  const LINE = 18; // the height of a line of the editor, as page.css has it
  const MARGIN = 6;
  const PAUSE = 150; // milliseconds without a key before a script is replayed

  const lab = { module: null, address: null, worker: null, timer: 0, examples: {}, line: null };

  function say(text, isError) {
    byId("lab-says").textContent = text;
    byId("lab-says").classList.toggle("error", isError);
  }

  /** Runs commands over a script in a worker of their own, and hands on what each gives. */
  function run(script, commands, take) {
    const worker = new Worker(lab.address);
    worker.onmessage = ({ data }) => take(data);
    worker.onerror = (event) => take({ command: "", status: 5, text: "", trap: event.message });
    worker.postMessage({ module: lab.module, script, commands });
    return worker;
  }

  /** The number of the refused line and why it is refused, where the last line of a report says so. */
  function refusedIn(report) {
    const found = /(?:^|\n)refused (\d+) (\w+)\n$/.exec(report);
    return found && { line: Number(found[1]), name: found[2] };
  }

  function placeFault() {
    byId("numbers").scrollTop = byId("script").scrollTop;
    byId("fault").style.top = `${MARGIN + (lab.line - 1) * LINE - byId("script").scrollTop}px`;
  }

  function markLine(refused) {
    lab.line = refused?.line ?? null;
    byId("fault").hidden = refused === null;
    byId("fault").textContent = refused ? `line ${refused.line}: ${refused.name}` : "";
    byId("script").setAttribute("aria-invalid", refused !== null);
    placeFault();
  }

  function numberLines() {
    const count = byId("script").value.split("\n").length;
    byId("numbers").textContent = Array.from({ length: count }, (_, at) => at + 1).join("\n");
  }

  const WANTS = { 4: "The output is too long for this page.", 5: "There wasn't memory enough for this script." };

  function take({ command, status, text, trap }) {
    if (WANTS[status]) return say(trap ? `The replay was stopped: ${trap}` : WANTS[status], true);
    if (command === "replay") {
      byId("report-text").textContent = text;
      markLine(refusedIn(text));
      return say("", false);
    }
    document.body.dataset.replayed = Number(document.body.dataset.replayed ?? 0) + 1;
    Page.takeAgain(text, byId("example").value);
  }

  /** Replays what stands in the editor; a replay that is still at work is of an older script. */
  function replay() {
    clearTimeout(lab.timer);
    lab.worker?.terminate();
    lab.worker = run(byId("script").value, ["replay", "journal"], take);
  }

  function edit() {
    numberLines();
    placeFault();
    clearTimeout(lab.timer);
    lab.timer = setTimeout(replay, PAUSE);
  }

  function show(name) {
    byId("script").value = lab.examples[name];
    byId("script").scrollTop = 0;
    numberLines();
    replay();
  }

  /** Replays two examples, and compares their reports with those that the proved program wrote. */
  function check(reports) {
    const names = Object.keys(reports);
    const checks = names.map((name) => new Promise((resolve) => {
      const worker = run(lab.examples[name], ["replay"], ({ text }) => {
        worker.terminate();
        resolve(text === reports[name]);
      });
    }));
    return Promise.all(checks).then((same) => names.filter((_, at) => !same[at]));
  }

  function obey() {
    byId("script").addEventListener("input", edit);
    byId("script").addEventListener("scroll", placeFault);
    byId("example").addEventListener("change", (event) => show(event.target.value));
  }

  async function start() {
    const data = byId("library");
    if (!data) return;
    byId("lab").hidden = false;
    if (!Library.isThere()) {
      return say("This browser has no 64-bit memory for WebAssembly, so it can't replay scripts. A journal can be opened.", true);
    }
    const { wasm, worker, examples, reports } = JSON.parse(data.textContent);
    lab.module = await WebAssembly.compile(Uint8Array.from(atob(wasm), (letter) => letter.charCodeAt(0)));
    lab.address = URL.createObjectURL(new Blob([worker], { type: "text/javascript" }));
    lab.examples = examples;
    const wrong = await check(reports);
    document.body.dataset.checked = Object.keys(reports).length;
    if (wrong.length) return say(`This browser replays ${wrong.join(", ")} otherwise than the proved program does: nothing is replayed.`, true);
    byId("example").replaceChildren(...Object.keys(examples).map((name) => Elements.html("option", {}, name)));
    obey();
    byId("example").value = Object.keys(reports)[0];
    show(byId("example").value);
  }

  return { start, say };
})();

Lab.start().catch((error) => Lab.say(`This browser can't load the program: ${error.message}. A journal can be opened.`, true));
