// What is drawn, each kind in one call: strokes of a width in pixels, faces, round points, and names.
(function (gmr) {
  'use strict';

  const COMMON = `
    uniform float apart; uniform float lift; uniform vec2 size; uniform float isSolid;
    varying vec3 world; varying vec3 tint;
    vec4 placed(vec3 at, vec3 by) {
      vec3 there = at + apart * by;
      world = there;
      return projectionMatrix * modelViewMatrix * vec4(there, 1.0);
    }
    bool turnedAway(vec3 outward, vec3 at) {
      return isSolid > 0.5 && dot(outward, cameraPosition - at) < -1e-4;
    }`;
  const CUT = `
    uniform vec4 plane; uniform float fade;
    varying vec3 world; varying vec3 tint;
    void cutAway() { if (dot(world, plane.xyz) > plane.w) discard; }`;

  // A stroke is a quad along two places, with the head of an arrow where `head` is more than 0: all in pixels.
  const STROKE = `
    attribute vec3 begin; attribute vec3 end; attribute vec3 drift; attribute vec3 drift2;
    attribute vec3 colour; attribute float id; attribute vec3 outward;
    uniform float width; uniform float head; uniform float least;
    varying float along;
    ${COMMON}
    void main() {
      vec4 q = placed(end, drift2), p = placed(begin, drift);
      vec2 from = p.xy / p.w * size, to = q.xy / q.w * size;
      float reach = max(length(to - from), 1e-4);
      vec2 way = (to - from) / reach, across = vec2(-way.y, way.x);
      float tip = min(head, 0.3 * reach), thick = clamp(width, 0.6, max(least, 0.12 * reach));
      float at = position.x > 0.5 && position.z < 1.5 ? 1.0 - tip / reach : position.x; // in the picture: the head has room
      float share = at * p.w / (q.w + at * (p.w - q.w)); // in space, so that the head's base is as deep as its face there
      vec4 there = mix(p, q, share);
      float wide = position.z > 0.5 ? 0.75 * tip : 0.5 * thick;
      vec2 moved = across * position.y * wide;
      there.xy += moved / size * there.w;
      there.z -= lift * there.w;
      world = mix(begin + apart * drift, end + apart * drift2, share);
      along = at * reach; tint = colour;
      gl_Position = id < 0.0 || turnedAway(outward, world) ? vec4(2.0, 2.0, 2.0, 1.0) : there;
    }`;
  const STROKE_COLOUR = `
    uniform float dash; varying float along;
    ${CUT}
    void main() {
      cutAway();
      if (dash > 0.0 && mod(along, 2.0 * dash) > 1.2 * dash) discard;
      gl_FragColor = vec4(tint, fade);
    }`;
  const FACE = `
    attribute vec3 drift; attribute vec3 colour;
    varying vec3 way; varying vec3 seen;
    ${COMMON}
    void main() {
      gl_Position = placed(position, drift);
      gl_Position.z -= lift * gl_Position.w;
      way = normalMatrix * normal; seen = (modelViewMatrix * vec4(world, 1.0)).xyz; tint = colour;
    }`;
  const FACE_COLOUR = `
    uniform float shade; uniform vec3 pale; uniform float paleness; varying vec3 way; varying vec3 seen;
    ${CUT}
    void main() {
      cutAway();
      vec3 turned = normalize(way);
      if (dot(turned, seen) > 0.0) turned = -turned;
      float light = shade + (1.0 - shade) * (0.55 * max(0.0, dot(turned, normalize(vec3(-0.4, 0.55, 0.73)))) + 0.45 * max(0.0, turned.z));
      gl_FragColor = vec4(mix(tint, pale, paleness) * light, fade);
    }`;
  const POINT = `
    attribute vec3 drift; attribute vec3 colour; attribute float id;
    uniform float width; uniform float pixels;
    ${COMMON}
    void main() {
      gl_Position = placed(position, drift);
      gl_Position.z -= lift * gl_Position.w;
      gl_PointSize = width * pixels;
      if (id < 0.0) gl_Position = vec4(2.0, 2.0, 2.0, 1.0);
      tint = colour;
    }`;
  const POINT_COLOUR = `
    ${CUT}
    void main() {
      cutAway();
      if (length(gl_PointCoord - 0.5) > 0.5) discard;
      gl_FragColor = vec4(tint, fade);
    }`;
  // A name is a row of digits, each a quad of the picture of all digits, beside a place on the side of its face.
  const NAME = `
    attribute vec3 begin; attribute vec3 drift; attribute vec3 inward; attribute vec3 digit;
    attribute vec3 stroke; attribute vec3 outward;
    uniform float width; varying vec2 spot;
    ${COMMON}
    void main() {
      vec4 inner = placed(begin + inward, drift), tail = placed(begin + stroke, drift);
      vec4 there = placed(begin, drift); // the last one, since where it is cut is asked there
      gl_Position = there;
      vec2 way = inner.xy / inner.w * size - there.xy / there.w * size;
      float span = length(way);
      float steep = span > 1e-3 ? (inner.z / inner.w - there.z / there.w) / span : 0.0; // of the face below the name, by pixels
      way = span > 1e-3 ? way / span : vec2(0.0);
      vec2 corner = vec2((position.x + digit.y) * width * 0.6, position.y * width);
      float aside = abs(way.x) * 0.3 * width * digit.z + abs(way.y) * width * 0.37 + 5.0;
      corner += way * aside;
      gl_Position.xy += corner / size * gl_Position.w;
      gl_Position.z += (clamp(2.0 * aside * steep, -6e-4, 0.0) - lift) * gl_Position.w; // its far side too before the face
      vec2 line = tail.xy / tail.w * size - there.xy / there.w * size;
      float room = digit.z * width * 0.6;
      if (length(line) < 0.9 * room + 4.0 || turnedAway(outward, world)) gl_Position = vec4(2.0, 2.0, 2.0, 1.0);
      spot = vec2((digit.x + position.x + 0.5) / 10.0, position.y + 0.5);
    }`;
  const NAME_COLOUR = `
    uniform sampler2D digits; uniform vec3 ink; uniform vec3 rim; varying vec2 spot;
    ${CUT}
    void main() {
      cutAway();
      vec4 read = texture2D(digits, spot);
      if (read.a < 0.2) discard;
      gl_FragColor = vec4(mix(rim, ink, read.r), read.a);
    }`;

  // What is taken where a thing has no buffer of its own for it.
  const ABSENT = {drift: [0, 0, 0], drift2: [0, 0, 0], outward: [0, 0, 0], id: [0]};

  // A material over what all share: how far apart, how large the picture is, and where it is cut.
  function material(shared, vertexShader, fragmentShader, own, options) {
    const uniforms = {lift: {value: 0}, fade: {value: 1}, ...shared};
    Object.entries(own || {}).forEach(([name, value]) => { uniforms[name] = {value}; });
    const made = new THREE.ShaderMaterial({uniforms, vertexShader, fragmentShader, side: THREE.DoubleSide, ...options});
    made.defaultAttributeValues = ABSENT;
    return made;
  }

  // The quad of a stroke, and with the head of its arrow: x along, y across, z 0 for the shaft, 1 the head's base, 2 its
  // tip. The quad of a digit.
  const SHAFT = {at: [0, -1, 0, 1, -1, 0, 1, 1, 0, 0, 1, 0], index: [0, 1, 2, 0, 2, 3]};
  const ARROW = {at: [...SHAFT.at, 1, -1, 1, 1, 0, 2, 1, 1, 1], index: [...SHAFT.index, 4, 5, 6]};
  const QUAD = {at: [-0.5, -0.5, 0, 0.5, -0.5, 0, 0.5, 0.5, 0, -0.5, 0.5, 0], index: [0, 1, 2, 0, 2, 3]};

  // The geometry of things that are drawn once; with corners each is drawn at all of them.
  function geometryOf(attributes, corners) {
    const layout = Object.entries(attributes).map(([name, [array, width, isColour]]) => [name, [width, array.constructor, isColour]]);
    const [first, width] = Object.values(attributes)[0];
    const pool = new gmr.Pool(Object.fromEntries(layout), corners, first.length / width);
    pool.top = pool.room;
    for (const [name, [array]] of Object.entries(attributes)) pool[name] = array;
    return pool.geometry();
  }

  // The materials of each kind of thing, with uniforms of their own.
  const materials = {
    strokes: (shared, own) => material(shared, STROKE, STROKE_COLOUR, {width: 2, head: 0, least: 1.2, dash: 0, ...own},
      {transparent: (own.fade || 1) < 1}),
    faces(shared, own) {
      const isClear = own.fade !== undefined && own.fade < 1;
      return material(shared, FACE, FACE_COLOUR, {shade: 0.6, pale: new THREE.Color('#fff'), paleness: 0, ...own}, {transparent: isClear,
        depthWrite: !isClear, polygonOffset: true, polygonOffsetFactor: isClear ? 0 : 1.5, polygonOffsetUnits: isClear ? 0 : 4});
    },
    points: (shared, own) => material(shared, POINT, POINT_COLOUR, {width: 6, ...own}, {}),
    names: (shared, own) => material(shared, NAME, NAME_COLOUR, {width: 12, ...own}, {transparent: true, depthWrite: false}),
  };

  // What draws a geometry as things of a kind.
  function meshOf(kind, geometry, made, order) {
    const found = kind === 'points' ? new THREE.Points(geometry, made) : new THREE.Mesh(geometry, made);
    found.frustumCulled = false;
    found.renderOrder = order;
    return found;
  }

  // The picture of the ten digits: white with a rim of black, in red where ink is.
  function digitsTexture() {
    const canvas = document.createElement('canvas');
    canvas.width = 10 * 38;
    canvas.height = 64;
    const pen = canvas.getContext('2d');
    pen.font = '600 50px sans-serif';
    pen.textAlign = 'center';
    pen.textBaseline = 'middle';
    pen.lineJoin = 'round';
    for (let digit = 0; digit < 10; digit += 1) {
      pen.lineWidth = 9;
      pen.strokeStyle = '#000';
      pen.strokeText(String(digit), 38 * digit + 19, 34);
      pen.fillStyle = '#f00';
      pen.fillText(String(digit), 38 * digit + 19, 34);
    }
    const texture = new THREE.CanvasTexture(canvas);
    texture.minFilter = THREE.LinearFilter;
    texture.generateMipmaps = false;
    return texture;
  }

  Object.assign(gmr, {materials, geometryOf, meshOf, digitsTexture, SHAFT, ARROW, QUAD});
}(window.gmr = window.gmr || {}));
