"use strict";

/** A list of any length, of which only the rows in sight are made. Up, Down and Enter work in it. */
class RowList {
  static HEIGHT = 24;

  /**
   * @param {HTMLElement} box  scrolls
   * @param {string} name      what the list is, for those who hear the page
   */
  constructor(box, name) {
    this.box = box;
    this.name = name;
    this.inner = Elements.html("div", { class: "inner", role: "presentation" });
    box.replaceChildren(this.inner);
    Object.entries({ role: "listbox", tabindex: 0, "aria-label": name }).forEach(([key, value]) => box.setAttribute(key, value));
    box.addEventListener("scroll", () => this.draw());
    box.addEventListener("keydown", (event) => this.press(event));
    this.set(0, () => ({ cells: [] }));
  }

  /**
   * @param {number} count
   * @param {(at: number) => {cells: string[], go?: () => void, isAhead?: boolean}} row  each with the texts of its columns
   * @param {number} current  the row to mark and to bring into sight, or -1
   */
  set(count, row, current = -1) {
    this.count = count;
    this.row = row;
    this.inner.style.height = `${count * RowList.HEIGHT}px`;
    this.box.classList.toggle("empty", count === 0);
    this.choose(current);
  }

  /** Marks a row, and brings it into sight. */
  choose(current) {
    this.current = current;
    const { HEIGHT } = RowList;
    const [top, room] = [current * HEIGHT, this.box.clientHeight];
    if (current >= 0 && (top < this.box.scrollTop || top + HEIGHT > this.box.scrollTop + room)) {
      this.box.scrollTop = Math.max(0, top - room / 2);
    }
    this.draw();
  }

  draw() {
    const first = Math.max(0, Math.floor(this.box.scrollTop / RowList.HEIGHT) - 2);
    const end = Math.min(this.count, first + Math.ceil(this.box.clientHeight / RowList.HEIGHT) + 4);
    const rows = [];
    for (let at = first; at < end; at++) rows.push(this.make(at));
    this.inner.replaceChildren(...rows);
    const mark = rows.find((row) => row.getAttribute("aria-selected") === "true");
    if (mark) this.box.setAttribute("aria-activedescendant", mark.id);
    else this.box.removeAttribute("aria-activedescendant");
  }

  make(at) {
    const { cells, go, isAhead } = this.row(at);
    const row = Elements.html("div", {
      class: `row${isAhead ? " ahead" : ""}${go ? " link" : ""}`, role: "option", id: `${this.box.id}-${at}`,
      style: `top:${at * RowList.HEIGHT}px`, title: cells.join("  "), "aria-selected": at === this.current,
    }, ...cells.map((text) => Elements.html("span", {}, text)));
    if (go) row.addEventListener("click", go);
    return row;
  }

  press(event) {
    const step = { ArrowUp: -1, ArrowDown: 1 }[event.key];
    if (step) this.choose(Math.min(this.count - 1, Math.max(0, this.current + step)));
    else if (event.key === "Enter" && this.current >= 0) this.row(this.current).go?.();
    else return;
    event.preventDefault();
    event.stopPropagation();
  }
}
