// What lies under the pointer: of the strokes and points that are near it the one that counts most, or the face.
(function (gmr) {
  'use strict';

  const REACH = 4.5; // pixels round the pointer that are looked at
  const RANKS = {darts: ['dart', 0], points: ['vertex', 10], edges: ['edge', 20]};

  class Picker {
    constructor(viewer) {
      this.viewer = viewer;
    }

    // The layers that are seen, by their names, each with the uniforms that say how it is drawn.
    layer(name) {
      const {meshes, layers} = this.viewer.picture;
      const mesh = meshes.get(name);
      if (!mesh || !mesh.visible || !layers.has(name)) return null;
      const {uniforms} = mesh.material;
      const drawn = Object.fromEntries(['width', 'head', 'least', 'lift'].map((word) => [word, uniforms[word] ? uniforms[word].value : 0]));
      return {pool: layers.get(name).pool, drawn};
    }

    // The nearest thing to a place that isn't hidden: strokes and points first, then the face.
    nearest(x, y) {
      const near = new gmr.Near(this.viewer, x, y, REACH);
      const faces = this.layer('faces');
      if (faces) near.takeFaces(faces.pool);
      const found = [];
      for (const [name, [kind, rank]] of Object.entries(RANKS)) {
        const layer = this.layer(name);
        if (!layer) continue;
        const hits = kind === 'vertex' ? near.points(layer.pool, layer.drawn) : near.strokes(layer.pool, layer.drawn);
        for (const hit of hits) found.push({...hit, kind, rank: rank + hit.far});
      }
      found.sort((one, two) => one.rank - two.rank || one.depth - two.depth);
      const seen = found.find((hit) => !near.isHidden(hit.x, hit.y, hit.depth));
      if (seen) return seen;
      const face = near.faceAt(0, 0);
      return face && {kind: 'face', index: face.index};
    }

    // The dart at a place of the picture, by its place among the darts, with what was hit and where; or null.
    at(x, y) {
      const {shape} = this.viewer;
      if (!shape || !shape.count) return null;
      const hit = this.nearest(x, y);
      if (!hit) return null;
      const ray = this.ray(x, y);
      if (hit.kind === 'face') return this.inFace(hit.index, ray);
      if (hit.kind === 'edge') return this.onEdge(hit.index, ray);
      const point = hit.kind === 'vertex' ? this.placed(hit.index, shape.vertex)
        : nearestOnStroke(ray, ...this.stroke(hit.index)).point;
      return {index: hit.index, kind: hit.kind, point};
    }

    // The way from the eye through a place of the picture.
    ray(x, y) {
      const {camera, renderer} = this.viewer;
      const {clientWidth, clientHeight} = renderer.domElement;
      const caster = new THREE.Raycaster();
      caster.setFromCamera(new THREE.Vector2(2 * x / clientWidth - 1, 1 - 2 * y / clientHeight), camera);
      return caster.ray;
    }

    // A place of a dart as it is drawn, pulled apart.
    placed(dart, array) { return this.viewer.placed(dart, this.viewer.shape.place(array, dart)); }

    stroke(dart) {
      const {viewer} = this;
      const ends = viewer.shape.stroke(dart, viewer.inset);
      return [0, 3].map((from) => viewer.placed(dart, Array.from(ends.subarray(from, from + 3))));
    }

    // The dart of a face that is nearest to where a ray meets it.
    inFace(first, ray) {
      const {shape} = this.viewer;
      const polygon = new gmr.Polygon().read(shape, first);
      const corner = new THREE.Vector3(...this.viewer.placed(first, polygon.corner(0)));
      const plane = new THREE.Plane().setFromNormalAndCoplanarPoint(new THREE.Vector3(...polygon.normal), corner);
      const point = ray.intersectPlane(plane, new THREE.Vector3()) || corner;
      let best = null;
      for (const dart of shape.rim(first)) {
        const near = new THREE.Vector3();
        new THREE.Line3(new THREE.Vector3(...this.placed(dart, shape.vertex)), new THREE.Vector3(...this.placed(dart, shape.edge)))
          .closestPointToPoint(point, true, near);
        const far = near.distanceTo(point);
        if (!best || far < best.far - 1e-9) best = {far, index: dart};
      }
      return {index: best.index, kind: 'face', point};
    }

    // The dart of an edge whose half a ray passes.
    onEdge(dart, ray) {
      const {shape} = this.viewer;
      const halves = [dart, shape.steps[0][dart]].map((one) => ({index: one, kind: 'edge',
        ...nearestOnStroke(ray, this.placed(one, shape.vertex), this.placed(one, shape.edge))}));
      return halves[1].far < halves[0].far ? halves[1] : halves[0];
    }
  }

  // Where a ray is nearest to a segment, and how far it is there.
  function nearestOnStroke(ray, begin, end) {
    const point = new THREE.Vector3();
    const far = ray.distanceSqToSegment(new THREE.Vector3(...begin), new THREE.Vector3(...end), undefined, point);
    return {point, far};
  }

  gmr.Picker = Picker;
}(window.gmr = window.gmr || {}));
