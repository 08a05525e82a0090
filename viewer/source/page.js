"use strict";

/** The page: takes a journal, shows its run, and obeys buttons, keys and clicks. */
const Page = (() => {
  const byId = (id) => document.getElementById(id);
  const zoomStep = 1.25;

  /** What is shown: nothing before a journal was read. */
  const view = {
    run: null, player: null, drawing: null, chart: null, panels: null, chosen: null, zoom: 1, isFitted: true,
  };

  /** Says what is wrong, or what was done. */
  function say(text, isError) {
    const box = byId("message");
    box.textContent = text;
    box.classList.toggle("error", isError);
    box.hidden = text === "";
  }

  function show(position, duration) {
    const isCalm = matchMedia("(prefers-reduced-motion: reduce)").matches;
    view.panels.show(position);
    if (byId("network").hidden) chart().show(position);
    else {
      view.drawing.show(position, isCalm ? 0 : duration);
      follow();
    }
    byId("time").value = position;
    byId("time").setAttribute("aria-valuetext", byId("event-number").textContent);
    byId("number").value = Run.numberAt(view.run, position);
    byId("play").textContent = view.player.isPlaying ? "Pause" : "Play";
  }

  /** The chart, which is made when it is first looked at. */
  function chart() {
    view.chart ??= new Chart.MessageChart(byId("chart"), view.run, go, choose, view.chosen);
    return view.chart;
  }

  /** Scrolls the drawing to where the event happens, if that is out of sight. */
  function follow() {
    const point = view.drawing.focusPoint();
    if (!point || view.isFitted) return;
    const box = byId("network");
    const [x, y] = point.map((at) => at * view.zoom);
    if (x < box.scrollLeft || x > box.scrollLeft + box.clientWidth) box.scrollLeft = x - box.clientWidth / 2;
    if (y < box.scrollTop || y > box.scrollTop + box.clientHeight) box.scrollTop = y - box.clientHeight / 2;
  }

  function choose(key) {
    view.panels.choosePacket(key);
    view.drawing.mark(key);
    view.chosen = key;
    view.chart?.mark(key);
  }

  const go = (position) => view.player.go(position);

  /** Shows the run of a journal's text. */
  function take(text, name) {
    const { run, fault } = Run.of(text);
    byId("start").hidden = run !== null;
    byId("shown").hidden = run === null;
    document.title = `${name}: a run of IP switches`;
    byId("name").textContent = name;
    if (run) open(run);
    const rest = run ? " What stands before this line is shown." : "";
    say(fault ? `${name}, line ${fault.line}: ${fault.text}.${rest}` : "", fault !== null);
  }

  function open(run) {
    view.player?.pause();
    view.run = run;
    view.player = new Player(Run.endOf(run), show);
    view.drawing = new Drawing.NetworkDrawing(byId("drawing"), run, choose);
    view.chart = null;
    view.panels = new Panels.SidePanels(run, go, choose);
    view.player.setSpeed(Number(byId("speed").value));
    byId("time").max = Run.endOf(run);
    byId("number").max = Run.numberAt(run, Run.endOf(run));
    choose(null);
    fit();
    go(0);
  }

  /** The same of a run that is edited: the event that was shown is, if it is there. */
  function takeAgain(text, name) {
    const position = view.player?.position ?? 0;
    take(text, name);
    if (view.run) go(Math.min(position, view.player.end));
  }

  function setZoom(zoom) {
    view.zoom = zoom;
    const { width, height } = view.drawing.layout;
    byId("drawing").setAttribute("width", width * zoom);
    byId("drawing").setAttribute("height", height * zoom);
  }

  /** The whole network in sight. */
  function fit() {
    const box = byId("network");
    const { width, height } = view.drawing.layout;
    view.isFitted = true;
    setZoom(Math.min(1.6, (box.clientWidth - 4) / width, (box.clientHeight - 4) / height) || 1);
  }

  function zoomBy(factor) {
    view.isFitted = false;
    setZoom(view.zoom * factor);
    follow();
  }

  /** Shows the network or the chart. */
  function turnTo(name) {
    for (const one of ["network", "chart"]) {
      byId(one).hidden = one !== name;
      byId(`to-${one}`).setAttribute("aria-pressed", one === name);
      byId(`${one}-tools`).hidden = byId(`${one}-key`).hidden = one !== name;
    }
    show(view.player.position, 0);
    if (view.isFitted && name === "network") fit();
  }

  const turn = () => turnTo(byId("network").hidden ? "network" : "chart");

  function save() {
    const { text, first, last } = chart().saved();
    const address = URL.createObjectURL(new Blob([text], { type: "image/svg+xml" }));
    Elements.html("a", { href: address, download: `${byId("name").textContent}.svg` }).click();
    setTimeout(() => URL.revokeObjectURL(address), 10000);
    say(`The chart of the events ${first} to ${last} is saved.`, false);
  }

  function changeSpeed(speed) {
    view.player.setSpeed(speed);
    byId("speed").value = view.player.speed;
  }

  function toSaying(find) {
    const position = find(view.run, view.player.position);
    if (position !== null) go(position);
  }

  /** What each key does. */
  const KEYS = {
    " ": () => view.player.toggle(),
    ArrowRight: () => view.player.step(1),
    ArrowLeft: () => view.player.step(-1),
    n: () => toSaying(Run.nextSaying),
    p: () => toSaying(Run.previousSaying),
    Home: () => go(0),
    End: () => go(view.player.end),
    "+": () => changeSpeed(view.player.speed + 1),
    "-": () => changeSpeed(view.player.speed - 1),
    c: turn,
    f: fit,
    l: () => zoomBy(zoomStep),
    s: () => zoomBy(1 / zoomStep),
    Escape: () => choose(null),
  };

  /** Whether a key belongs to the element that has the focus, as a digit to a field and a space to a button. */
  function isTaken(event) {
    const { tagName, type } = event.target;
    if (event.ctrlKey || event.metaKey || event.altKey || byId("help").open) return true;
    if (event.key === " ") return ["BUTTON", "SELECT", "INPUT"].includes(tagName) && type !== "range";
    if (tagName === "TEXTAREA") return true;
    return (tagName === "INPUT" && type !== "range" && type !== "file") || (tagName === "SELECT" && event.key.length > 1);
  }

  function press(event) {
    if (event.key === "?" && !byId("help").open) byId("help").showModal();
    if (event.key === "o" && !isTaken(event)) byId("file").click();
    const act = KEYS[event.key];
    if (!act || !view.run || isTaken(event)) return;
    event.preventDefault();
    act();
  }

  async function takeFile(file) {
    if (!file) return;
    say(`${file.name} is read.`, false);
    take(await file.text(), file.name);
  }

  function obeyButtons() {
    const buttons = {
      play: " ", forward: "ArrowRight", back: "ArrowLeft", next: "n", previous: "p", first: "Home", last: "End",
      fit: "f", larger: "l", smaller: "s",
    };
    for (const [id, key] of Object.entries(buttons)) byId(id).addEventListener("click", KEYS[key]);
    byId("to-network").addEventListener("click", () => turnTo("network"));
    byId("to-chart").addEventListener("click", () => turnTo("chart"));
    byId("save").addEventListener("click", save);
    byId("to-help").addEventListener("click", () => byId("help").showModal());
  }

  function obeyFields() {
    byId("file").addEventListener("change", (event) => takeFile(event.target.files[0]));
    byId("time").addEventListener("input", (event) => go(Number(event.target.value)));
    byId("speed").addEventListener("change", (event) => changeSpeed(Number(event.target.value)));
    byId("number").addEventListener("change", (event) => go(Run.positionOf(view.run, Number(event.target.value))));
    byId("packet").addEventListener("input", (event) => choose(event.target.value === "" ? null : event.target.value));
  }

  function obeyDrops() {
    addEventListener("dragover", (event) => event.preventDefault());
    addEventListener("drop", (event) => {
      event.preventDefault();
      takeFile(event.dataTransfer.files[0]);
    });
  }

  function start() {
    byId("speed").replaceChildren(...Player.SPEEDS.map((speed, at) => Elements.html("option", { value: at }, `${speed} a second`)));
    byId("speed").value = 2;
    obeyButtons();
    obeyFields();
    obeyDrops();
    addEventListener("keydown", press);
    addEventListener("resize", () => {
      if (view.run && view.isFitted) fit();
      if (view.run && !byId("chart").hidden) chart().draw();
    });
    const embedded = byId("journal");
    if (embedded) take(embedded.textContent.replace(/^\n/, ""), embedded.dataset.name);
  }

  return { start, takeAgain };
})();

Page.start();
