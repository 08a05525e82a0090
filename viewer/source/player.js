"use strict";

/** The position that is shown, and its going on while the run plays. */
class Player {
  /** Events of the journal in a second. */
  static SPEEDS = [1, 2, 5, 10, 25, 100, 1000];

  /** A step that is quicker than this, in milliseconds, is shown without movement. */
  static LEAST_MOVEMENT = 60;

  /**
   * @param {number} end  the last position
   * @param {(position: number, duration: number) => void} show  told the position and how long the cells may move
   */
  constructor(end, show) {
    Object.assign(this, { end, show, position: 0, speed: 2, frame: null, began: 0, shown: 0 });
  }

  get isPlaying() {
    return this.frame !== null;
  }

  get pace() {
    return 1000 / Player.SPEEDS[this.speed];
  }

  /** Goes to a position; the run stops playing. */
  go(position) {
    this.pause();
    this.move(position, 0);
  }

  /** Goes on or back by so many events. */
  step(count) {
    this.pause();
    this.move(this.position + count, Math.min(350, Math.max(150, this.pace)));
  }

  move(position, duration) {
    this.position = Math.min(this.end, Math.max(0, position));
    this.show(this.position, duration);
  }

  play() {
    if (this.position === this.end) this.move(0, 0);
    this.began = performance.now();
    this.shown = 0;
    this.frame = requestAnimationFrame((now) => this.tick(now));
    this.show(this.position, 0);
  }

  pause() {
    if (!this.isPlaying) return;
    cancelAnimationFrame(this.frame);
    this.frame = null;
    this.show(this.position, 0);
  }

  toggle() {
    if (this.isPlaying) this.pause();
    else this.play();
  }

  setSpeed(speed) {
    this.speed = Math.min(Player.SPEEDS.length - 1, Math.max(0, speed));
    this.began = performance.now();
    this.shown = 0;
  }

  /** Shows as many events as are due. */
  tick(now) {
    this.frame = requestAnimationFrame((later) => this.tick(later));
    const due = Math.floor((now - this.began) / this.pace) - this.shown;
    if (due <= 0) return;
    this.shown += due;
    const movement = this.pace * 0.85;
    this.move(this.position + due, movement >= Player.LEAST_MOVEMENT ? Math.min(350, movement) : 0);
    if (this.position === this.end) this.pause();
  }
}
