// The pointer and the keys over a viewer's canvas.
(function (gmr) {
  'use strict';

  const STILL = 4; // pixels that a pointer may move between down and up, and it is still a click

  class Pointer {
    constructor(viewer) {
      this.viewer = viewer;
      this.canvas = viewer.renderer.domElement;
      this.ended = [];
      this.listen('mousedown', (event) => { this.down = [event.clientX, event.clientY]; });
      this.listen('click', (event) => this.click(event));
      this.listen('mousemove', (event) => this.move(event));
      this.listen('mouseleave', () => this.leave());
      this.listen('keydown', (event) => this.key(event));
    }

    listen(name, listener) {
      this.canvas.addEventListener(name, listener);
      this.ended.push(() => this.canvas.removeEventListener(name, listener));
    }

    place(event) {
      const box = this.canvas.getBoundingClientRect();
      return [event.clientX - box.left, event.clientY - box.top];
    }

    click(event) {
      this.canvas.focus({preventScroll: true});
      if (this.down && Math.hypot(event.clientX - this.down[0], event.clientY - this.down[1]) > STILL) return;
      if (!this.viewer.state) return;
      const hit = this.viewer.hitAt(...this.place(event), event);
      if (hit) this.viewer.tell('pick', hit);
    }

    // Looks under the pointer once a picture, and not while it turns the map.
    move(event) {
      if (event.buttons || !this.viewer.listeners.hover.size || !this.viewer.state) return;
      this.last = event;
      if (this.waiting) return;
      this.waiting = requestAnimationFrame(() => {
        this.waiting = 0;
        if (this.last) this.viewer.tell('hover', this.viewer.hitAt(...this.place(this.last), this.last));
      });
    }

    leave() {
      this.last = null;
      this.viewer.tell('hover', null);
    }

    key(event) {
      if (event.ctrlKey || event.metaKey || event.altKey) return;
      const by = event.shiftKey ? this.moves() : this.turns();
      const done = by[event.key];
      if (!done) return;
      done();
      event.preventDefault();
      this.viewer.controls.update();
      this.viewer.draw();
    }

    turns() {
      const near = (share) => () => this.nearer(share);
      return {ArrowLeft: () => this.turn(0.12, 0), ArrowRight: () => this.turn(-0.12, 0), ArrowUp: () => this.turn(0, 0.12),
        ArrowDown: () => this.turn(0, -0.12), '+': near(0.88), '=': near(0.88), '-': near(1 / 0.88), f: () => this.viewer.fit()};
    }

    moves() {
      return {ArrowLeft: () => this.shift(-1, 0), ArrowRight: () => this.shift(1, 0), ArrowUp: () => this.shift(0, 1),
        ArrowDown: () => this.shift(0, -1), '+': () => this.nearer(0.88), F: () => this.viewer.fit()};
    }

    // Turns the camera round what it looks at.
    turn(round, up) {
      const {camera, controls} = this.viewer;
      const way = camera.position.clone().sub(controls.target);
      const far = way.length();
      const above = Math.max(-1.5707, Math.min(1.5707, Math.asin(way.z / far) + up));
      const angle = Math.atan2(way.y, way.x) - round;
      way.set(Math.cos(above) * Math.cos(angle), Math.cos(above) * Math.sin(angle), Math.sin(above)).multiplyScalar(far);
      camera.position.copy(controls.target).add(way);
    }

    shift(right, up) {
      const {camera, controls} = this.viewer;
      const step = 0.06 * camera.position.distanceTo(controls.target);
      const by = new THREE.Vector3(right * step, up * step, 0).applyQuaternion(camera.quaternion);
      camera.position.add(by);
      controls.target.add(by);
    }

    nearer(share) {
      const {camera, controls} = this.viewer;
      camera.position.sub(controls.target).multiplyScalar(share).add(controls.target);
    }

    destroy() {
      cancelAnimationFrame(this.waiting);
      this.ended.forEach((end) => end());
    }
  }

  gmr.Pointer = Pointer;
}(window.gmr = window.gmr || {}));
