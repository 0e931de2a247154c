// Draws the meshes of a page: samples the control points at the slider's level, and shows what the switches ask for.
"use strict";
(function () {
  const data = JSON.parse(document.getElementById("data").textContent);
  const MOST_MISS = 13, MOST_SHARPNESS = 16, PLAIN_SHARPNESS = 8, POINTS = 41, FIRST_A = 25, TICKS = 256;
  const MOST_TRIANGLES = 2000000, FIRST_TRIANGLES = 150000, MOST_LEVEL = 16;
  const element = (id) => document.getElementById(id);
  const counted = (number) => number.toLocaleString("en");

  // ---- meshes

  function list(text, Kind) {
    const raw = atob(text), bytes = new Uint8Array(raw.length);
    for (let i = 0; i < raw.length; i++) bytes[i] = raw.charCodeAt(i);
    return new Kind(bytes.buffer);
  }

  // The lists of a mesh, and for each corner its face, the next and the previous corner, and the number of its leaving edge.
  function read(entry) {
    const mesh = {
      name: entry.name, sense: entry.sense, coordinates: list(entry.coordinates, Int32Array), sides: list(entry.sides, Uint8Array),
      corners: list(entry.corners, Uint16Array), sharpness: list(entry.sharpness, Uint8Array), links: list(entry.links, Uint16Array),
      points: list(entry.points, Int32Array), misses: list(entry.misses, Float32Array), irregularVertices: entry.irregular_vertices,
      irregularFaces: entry.irregular_faces, largest: entry.largest
    };
    const count = mesh.corners.length;
    mesh.count = count;
    mesh.face = new Uint32Array(count);
    mesh.next = new Uint32Array(count);
    mesh.previous = new Uint32Array(count);
    mesh.linkedFrom = new Uint32Array(count);
    mesh.edge = new Uint32Array(count);
    let start = 0;
    mesh.sides.forEach((sides, face) => {
      for (let i = 0; i < sides; i++) {
        const corner = start + i, next = start + (i + 1) % sides;
        mesh.face[corner] = face;
        mesh.next[corner] = next;
        mesh.previous[next] = corner;
      }
      start += sides;
    });
    let edges = 0;
    for (let c = 0; c < count; c++) mesh.linkedFrom[mesh.links[c]] = c;
    for (let c = 0; c < count; c++) {
      const reverse = mesh.previous[mesh.links[c]];
      mesh.edge[c] = reverse < c ? mesh.edge[reverse] : edges++;
    }
    return mesh;
  }

  // ---- sampling

  // The 15 control points of each side's triangle among the 41, in rows from the side inwards and each from the head.
  const TRIANGLES = [0, 1, 2, 3].map((side) => {
    const place = (along, depth, last) => [[depth, along], [last - along, last - depth], [last - depth, last - along], [along, depth]][side];
    const b = (along, depth) => { const [row, column] = place(along, depth, 4); return 5 * row + column; };
    const a = (along, depth) => { const [row, column] = place(along, depth, 3); return FIRST_A + 4 * row + column; };
    return [0, 1, 2, 3, 4].map((j) => b(j, 0)).concat([0, 1, 2, 3].map((j) => a(j, 0)), [1, 2, 3].map((j) => b(j, 1)),
      [1, 2].map((j) => a(j, 1)), [b(2, 2)]);
  });
  const HEADS = [0, 2, 2, 0], TAILS = [1, 1, 3, 3];
  const place = (n, k, j) => k * (2 * n + 3 - k) / 2 + j;   // of weights i, j, k in rows from the side inwards
  const sampleCount = (n) => (n + 1) * (n + 2) / 2;

  // For each sample the weights of the three points between which the last step of de Casteljau's algorithm lies: each is a cubic
  // sum over ten of the fifteen points.
  const CUBIC = [];
  for (let k = 0; k < 4; k++) for (let j = 0; j + k < 4; j++) CUBIC.push([3 - j - k, j, k]);
  const FACTORIALS = [1, 1, 2, 6];
  const STEPS = [[0, 0], [0, 1], [1, 0]].map(([k, j]) => CUBIC.map(([, cj, ck]) => place(4, ck + k, cj + j)));
  function weights(n) {
    const all = new Float64Array(10 * sampleCount(n));
    for (let k = 0; k <= n; k++) for (let j = 0; j + k <= n; j++) CUBIC.forEach(([a, b, c], at) => {
      all[10 * place(n, k, j) + at] = 6 / (FACTORIALS[a] * FACTORIALS[b] * FACTORIALS[c]) *
        Math.pow((n - j - k) / n, a) * Math.pow(j / n, b) * Math.pow(k / n, c);
    });
    return all;
  }

  // The numbers of the closed mesh's points, for each sample of each triangle: those on common sides are the same.
  function numbers(mesh, n) {
    const vertices = mesh.coordinates.length / 3, count = mesh.count, samples = sampleCount(n);
    const edges = vertices + mesh.sides.length, borders = edges + count / 2, inner = borders + 2 * count * (n - 1);
    const within = 1 + 2 * n * (n - 1), all = new Uint32Array(4 * count * samples);
    for (let c = 0, at = 0; c < count; c++) {
      const ends = [mesh.corners[c], edges + mesh.edge[c], vertices + mesh.face[c], edges + mesh.edge[mesh.previous[c]]];
      const sides = [2 * c, 2 * c + 1, 2 * mesh.previous[c] + 1, 2 * mesh.linkedFrom[c]];
      const own = inner + c * within;
      let free = own + 1 + 4 * (n - 1);
      for (let s = 0; s < 4; s++) for (let k = 0; k <= n; k++) for (let j = 0; j + k <= n; j++, at++) {
        if (k === n) all[at] = own;
        else if (k === 0) all[at] = j === 0 ? ends[HEADS[s]] : j === n ? ends[TAILS[s]] : borders + sides[s] * (n - 1) + j - 1;
        else if (j === 0) all[at] = own + 1 + HEADS[s] * (n - 1) + k - 1;
        else if (j + k === n) all[at] = own + 1 + TAILS[s] * (n - 1) + k - 1;
        else all[at] = free++;
      }
    }
    return { all, count: inner + count * within };
  }

  // All samples at a level: positions in ticks, normals that point outwards, and triangles that run counter-clockwise seen from there.
  function sampled(mesh, n) {
    const samples = sampleCount(n), total = 4 * mesh.count * samples, cubic = weights(n), closed = numbers(mesh, n);
    const positions = new Float64Array(3 * total), sums = new Float64Array(3 * closed.count), normals = new Float32Array(3 * total);
    const net = new Float64Array(45), [heads, tails, inner] = STEPS.map((step) => step.map((point) => 3 * point));
    for (let c = 0, at = 0; c < mesh.count; c++) for (let s = 0; s < 4; s++) {
      for (let p = 0; p < 15; p++) for (let axis = 0; axis < 3; axis++) net[3 * p + axis] = mesh.points[3 * (POINTS * c + TRIANGLES[s][p]) + axis];
      const turn = mesh.sense * (s % 2 ? -1 : 1);
      for (let k = 0; k <= n; k++) for (let j = 0; j + k <= n; j++, at++) {
        const from = 10 * place(n, k, j), u = (n - j - k) / n, v = j / n, w = k / n;
        let hx = 0, hy = 0, hz = 0, tx = 0, ty = 0, tz = 0, ix = 0, iy = 0, iz = 0;
        for (let p = 0; p < 10; p++) {
          const weight = cubic[from + p], h = heads[p], t = tails[p], i = inner[p];
          hx += weight * net[h]; hy += weight * net[h + 1]; hz += weight * net[h + 2];
          tx += weight * net[t]; ty += weight * net[t + 1]; tz += weight * net[t + 2];
          ix += weight * net[i]; iy += weight * net[i + 1]; iz += weight * net[i + 2];
        }
        positions[3 * at] = u * hx + v * tx + w * ix;
        positions[3 * at + 1] = u * hy + v * ty + w * iy;
        positions[3 * at + 2] = u * hz + v * tz + w * iz;
        tx -= hx; ty -= hy; tz -= hz;
        ix -= hx; iy -= hy; iz -= hz;
        const x = ty * iz - tz * iy, y = tz * ix - tx * iz, z = tx * iy - ty * ix;
        const length = turn * Math.hypot(x, y, z) || 1, id = 3 * closed.all[at];
        sums[id] += x / length;
        sums[id + 1] += y / length;
        sums[id + 2] += z / length;
      }
    }
    for (let at = 0; at < total; at++) {
      const id = 3 * closed.all[at], length = Math.hypot(sums[id], sums[id + 1], sums[id + 2]) || 1;
      for (let axis = 0; axis < 3; axis++) normals[3 * at + axis] = sums[id + axis] / length;
    }
    const index = new Uint32Array(12 * mesh.count * n * n);
    for (let t = 0, at = 0; t < 4 * mesh.count; t++) {
      const first = t * samples, kept = mesh.sense * (t % 2 ? -1 : 1) > 0;
      const put = (p, q, r) => { index[at++] = first + p; index[at++] = first + (kept ? q : r); index[at++] = first + (kept ? r : q); };
      for (let k = 0; k < n; k++) for (let j = 0; j + k < n; j++) {
        put(place(n, k, j), place(n, k, j + 1), place(n, k + 1, j));
        if (j + k < n - 1) put(place(n, k, j + 1), place(n, k + 1, j + 1), place(n, k + 1, j));
      }
    }
    return { positions, normals, index, points: closed.count, triangles: index.length / 3 };
  }

  // ---- colours

  const colour = (text) => new THREE.Color(text.trim());
  const styled = (name) => colour(getComputedStyle(document.documentElement).getPropertyValue(name));
  const MISSES = ["#ffffd9", "#fed976", "#fd8d3c", "#e31a1c", "#800026"].map(colour);
  const SHARP = ["#2166ac", "#f0f0f0", "#b2182b"].map(colour);
  function between(stops, share) {
    const at = Math.min(Math.max(share, 0), 1) * (stops.length - 1), low = Math.min(Math.floor(at), stops.length - 2);
    return stops[low].clone().lerp(stops[low + 1], at - low);
  }
  const gradient = (stops) => "linear-gradient(to right, " + stops.map((stop) => "#" + stop.getHexString()).join(", ") + ")";

  // The colour of every sample. Sharpness: the half of a quad-net at the leaving edge by u, that at the arriving edge by v. Misses:
  // along a border those of its four conditions from the head to the tail, fading towards the centre.
  function colours(mesh, n, kind) {
    const samples = sampleCount(n), all = new Float32Array(12 * mesh.count * samples);
    const plain = styled(kind === "misses" ? "--bare" : "--surface");
    for (let c = 0, at = 0; c < mesh.count; c++) for (let s = 0; s < 4; s++) {
      const whole = between(SHARP, mesh.sharpness[2 * c + (s < 2 ? 0 : 1)] / MOST_SHARPNESS);
      const border = 4 * [2 * c, 2 * c + 1, 2 * mesh.previous[c] + 1, 2 * mesh.linkedFrom[c]][s];
      for (let k = 0; k <= n; k++) for (let j = 0; j + k <= n; j++, at += 3) {
        let shown = kind === "sharpness" ? whole : plain;
        if (kind === "misses" && k < n) {
          const along = 3 * j / (n - k), low = Math.min(Math.floor(along), 2);
          const miss = mesh.misses[border + low] * (low + 1 - along) + mesh.misses[border + low + 1] * (along - low);
          shown = plain.clone().lerp(between(MISSES, miss / MOST_MISS), 1 - k / n);
        }
        all[at] = shown.r;
        all[at + 1] = shown.g;
        all[at + 2] = shown.b;
      }
    }
    return all;
  }

  // ---- drawing

  const meshes = data.map(read);
  const low = [0, 1, 2].map(() => Infinity), high = low.map((x) => -x);
  for (const mesh of meshes) for (let i = 0; i < mesh.coordinates.length; i++) {
    low[i % 3] = Math.min(low[i % 3], TICKS * mesh.coordinates[i]);
    high[i % 3] = Math.max(high[i % 3], TICKS * mesh.coordinates[i]);
  }
  const centre = low.map((x, axis) => (x + high[axis]) / 2);
  const size = Math.hypot(...low.map((x, axis) => high[axis] - x)) / 2 || 1;
  // Differences first: floats keep no more digits than the picture needs.
  const shownAt = (ticks) => Float32Array.from(ticks, (x, i) => (x - centre[i % 3]) / size);

  const corners = Math.max(...meshes.map((mesh) => mesh.count));
  const levelFor = (most) => Math.max(1, Math.min(MOST_LEVEL, Math.floor(Math.sqrt(most / (4 * corners)))));
  const slider = element("level"), canvas = element("stage");
  slider.max = levelFor(MOST_TRIANGLES);
  slider.value = levelFor(FIRST_TRIANGLES);

  function say(words) {
    element("words").textContent = words;
    element("words").hidden = false;
    canvas.hidden = element("panel").hidden = element("names").hidden = true;
  }

  let renderer = null;
  try {
    renderer = new THREE.WebGLRenderer({ canvas, antialias: true, preserveDrawingBuffer: true });
  } catch (error) {
    say("The surface is drawn with WebGL, which this browser does not have or has turned off. Another browser, or this one with " +
      "hardware acceleration turned on, shows it.");
    window.view = { meshes, sampled, drawn: false };
    return;
  }
  canvas.addEventListener("webglcontextlost", () => say("The graphics card gave up drawing this page; load it again."));

  const scenes = meshes.map((mesh) => {
    const scene = new THREE.Scene(), offset = { polygonOffset: true, polygonOffsetFactor: 1, polygonOffsetUnits: 2 };
    const surface = new THREE.Mesh(new THREE.BufferGeometry(), new THREE.MeshPhongMaterial(Object.assign(
      { vertexColors: THREE.VertexColors || true, side: THREE.DoubleSide, shininess: 30, specular: 0x222222 }, offset)));
    const lines = () => new THREE.LineSegments(new THREE.BufferGeometry(), new THREE.LineBasicMaterial());
    const dots = () => new THREE.Points(new THREE.BufferGeometry(), new THREE.PointsMaterial({ size: 11, sizeAttenuation: false }));
    const made = { mesh, scene, surface, borders: lines(), coarse: lines(), vertices: dots(), faces: dots() };
    made.sky = new THREE.HemisphereLight(0xffffff);
    scene.add(surface, made.borders, made.coarse, made.vertices, made.faces, made.sky);
    const edges = [];
    for (let c = 0; c < mesh.count; c++) if (mesh.previous[mesh.links[c]] >= c) {
      for (const corner of [c, mesh.next[c]]) for (let axis = 0; axis < 3; axis++) {
        edges.push(TICKS * mesh.coordinates[3 * mesh.corners[corner] + axis]);
      }
    }
    made.coarse.geometry.setAttribute("position", new THREE.BufferAttribute(shownAt(edges), 3));
    return made;
  });
  const camera = new THREE.PerspectiveCamera(30, 1, 0.01, 100), light = new THREE.DirectionalLight(0xffffff);
  camera.up.set(0, 0, 1);
  const FIRST = { azimuth: -0.9, elevation: 0.5, distance: 3.7, target: [0, 0, 0] };
  const seat = Object.assign({}, FIRST);

  // Everything that depends on the level.
  function sample() {
    const n = Number(slider.value);
    let points = 0, triangles = 0;
    for (const made of scenes) {
      const mesh = made.mesh, of = sampled(mesh, n), samples = sampleCount(n);
      made.sampled = of;
      points += of.points;
      triangles += of.triangles;
      const positions = shownAt(of.positions), geometry = new THREE.BufferGeometry();
      geometry.setAttribute("position", new THREE.BufferAttribute(positions, 3));
      geometry.setAttribute("normal", new THREE.BufferAttribute(of.normals, 3));
      geometry.setIndex(new THREE.BufferAttribute(of.index, 1));
      made.surface.geometry.dispose();
      made.surface.geometry = geometry;
      const lines = new Float32Array(2 * 6 * n * mesh.count);
      for (let c = 0, at = 0; c < mesh.count; c++) for (let s = 0; s < 2; s++) for (let j = 0; j < n; j++) {
        const from = 3 * ((4 * c + s) * samples + j);
        for (let i = 0; i < 6; i++) lines[at++] = positions[from + i];
      }
      made.borders.geometry.dispose();
      made.borders.geometry = new THREE.BufferGeometry().setAttribute("position", new THREE.BufferAttribute(lines, 3));
      // irregular vertices are at the ends E0 of their corners' quad-nets, faces at E2; a little above the surface
      const dots = (chosen, end) => {
        const wanted = new Set(chosen), places = [];
        for (let c = 0; c < mesh.count; c++) {
          const number = end ? mesh.face[c] : mesh.corners[c];
          if (!wanted.delete(number)) continue;
          const at = 3 * (4 * c + (end ? 1 : 0)) * samples;
          for (let axis = 0; axis < 3; axis++) places.push(positions[at + axis] + 0.006 * of.normals[at + axis]);
        }
        return new THREE.BufferGeometry().setAttribute("position", new THREE.BufferAttribute(new Float32Array(places), 3));
      };
      for (const [cloud, chosen, end] of [[made.vertices, mesh.irregularVertices, 0], [made.faces, mesh.irregularFaces, 1]]) {
        cloud.geometry.dispose();
        cloud.geometry = dots(chosen, end);
      }
    }
    element("told").textContent = n + ": " + counted(points) + " points, " + counted(triangles) + " triangles";
    paint();
  }

  // Everything that depends on the colours.
  function paint() {
    const kind = document.querySelector("input[name=colour]:checked").value, n = Number(slider.value);
    for (const made of scenes) {
      made.surface.geometry.setAttribute("color", new THREE.BufferAttribute(colours(made.mesh, n, kind), 3));
      // what has a legend is lit so that no colour gets brighter than there
      made.surface.material.specular.set(kind === "plain" ? 0x222222 : 0);
      made.sky.intensity = kind === "plain" ? 0.75 : 0.9;
      made.sky.groundColor.set(kind === "plain" ? 0x667788 : 0xaaaaaa);
      made.borders.material.color = styled("--border");
      made.coarse.material.color = styled("--coarse");
      made.vertices.material.color = styled("--vertex");
      made.faces.material.color = styled("--face");
    }
    light.intensity = kind === "plain" ? 0.6 : 0.15;
    element("legend").hidden = kind === "plain";
    element("scale").style.background = gradient(kind === "misses" ? MISSES : SHARP);
    const most = kind === "misses" ? MOST_MISS : MOST_SHARPNESS;
    const marks = kind === "misses" ? { 0: "0", 4: "4", 8: "8", [most]: most + " ticks" } :
      { 0: "0, soft", [PLAIN_SHARPNESS]: PLAIN_SHARPNESS, [most]: most + ", crisp" };
    element("ends").replaceChildren(...Object.keys(marks).map((at) => {
      const mark = Object.assign(document.createElement("span"), { textContent: marks[at] });
      mark.style.left = 100 * at / most + "%";
      return mark;
    }));
    element("said").textContent = kind === "misses" ?
      "Misses of the four conditions along each border, from head to tail, the colour fading inwards; no mesh has one above " + MOST_MISS +
      ". Largest of conditions 1 to 4: " +
      meshes.map((mesh) => (meshes.length > 1 ? mesh.name + " " : "") + mesh.largest.join(", ")).join("; ") + "." :
      "The half of each quad-net at the leaving edge by u, at the arriving edge by v.";
    show();
  }

  // What the switches show.
  function show() {
    for (const made of scenes) {
      made.borders.visible = element("borders").checked;
      made.coarse.visible = element("coarse").checked;
      made.vertices.visible = made.faces.visible = element("irregular").checked;
    }
    element("irregular-legend").hidden = !element("irregular").checked;
    draw();
  }

  // The parts of the window, one for each mesh: beside one another, or one above the other where it is high. The open panel has a
  // place of its own: at the left, or above where the window is narrow.
  const isNarrow = () => window.innerWidth < 700;
  function parts() {
    const panel = element("panel"), left = panel.open && !isNarrow() ? panel.offsetLeft + panel.offsetWidth : 0;
    const top = panel.open && isNarrow() ? panel.offsetTop + panel.offsetHeight : 0;
    const width = window.innerWidth - left, height = window.innerHeight - top, count = meshes.length;
    return meshes.map((_, i) => width >= height ? [left + i * width / count, top, width / count, height] :
      [left, top + i * height / count, width, height / count]);
  }

  function draw() {
    const width = window.innerWidth, height = window.innerHeight;
    renderer.setPixelRatio(window.devicePixelRatio || 1);
    renderer.setSize(width, height, false);
    renderer.setScissorTest(false);
    renderer.setClearColor(styled("--ground"));
    renderer.clear();
    renderer.setScissorTest(true);
    const flat = Math.cos(seat.elevation), eye = [flat * Math.cos(seat.azimuth), flat * Math.sin(seat.azimuth), Math.sin(seat.elevation)];
    camera.position.set(...eye.map((x, axis) => seat.target[axis] + seat.distance * x));
    camera.near = seat.distance / 100;
    camera.far = seat.distance + 10;
    camera.lookAt(...seat.target);
    camera.updateMatrixWorld();
    light.position.set(-0.5, 0.8, 0.6).applyQuaternion(camera.quaternion);
    parts().forEach(([x, y, wide, tall], i) => {
      // the smaller of width and height shows the whole
      camera.aspect = wide / tall;
      camera.fov = 2 * Math.atan(Math.tan(Math.PI / 12) / Math.min(1, camera.aspect)) * 180 / Math.PI;
      camera.updateProjectionMatrix();
      renderer.setViewport(x, height - y - tall, wide, tall);
      renderer.setScissor(x, height - y - tall, wide, tall);
      scenes[i].scene.add(light);
      renderer.render(scenes[i].scene, camera);
      const label = element("names").children[i];
      if (label) Object.assign(label.style, { left: x + "px", width: wide + "px", bottom: height - y - tall + 12 + "px" });
    });
  }
  let waiting = false;
  function soon() {
    if (!waiting) requestAnimationFrame(() => { waiting = false; draw(); });
    waiting = true;
  }

  // ---- turning and zooming

  function turn(right, up) {
    seat.azimuth -= right;
    seat.elevation = Math.min(Math.max(seat.elevation + up, -1.56), 1.56);
    soon();
  }
  function zoom(factor) {
    seat.distance = Math.min(Math.max(seat.distance * factor, 0.05), 40);
    soon();
  }
  function move(x, y) {
    const scale = 2 * seat.distance * Math.tan(camera.fov * Math.PI / 360) / parts()[0][3];
    const right = new THREE.Vector3().setFromMatrixColumn(camera.matrixWorld, 0), up = new THREE.Vector3().setFromMatrixColumn(camera.matrixWorld, 1);
    seat.target = seat.target.map((t, axis) => t - scale * (x * right.getComponent(axis) - y * up.getComponent(axis)));
    soon();
  }
  function home() {
    Object.assign(seat, FIRST);
    draw();
  }

  const touches = new Map();
  canvas.addEventListener("pointerdown", (event) => {
    canvas.setPointerCapture(event.pointerId);
    touches.set(event.pointerId, [event.clientX, event.clientY]);
    canvas.focus({ preventScroll: true });
  });
  canvas.addEventListener("pointermove", (event) => {
    const before = touches.get(event.pointerId);
    if (!before) return;
    const now = [event.clientX, event.clientY], x = now[0] - before[0], y = now[1] - before[1];
    if (touches.size === 2) {
      const other = [...touches].find(([id]) => id !== event.pointerId)[1];
      const apart = (p) => Math.hypot(p[0] - other[0], p[1] - other[1]) || 1;
      zoom(apart(before) / apart(now));
      move(x / 2, y / 2);
    } else if (event.shiftKey || event.buttons & 6) move(x, y);
    else turn(x / 160, y / 160);
    touches.set(event.pointerId, now);
  });
  for (const kind of ["pointerup", "pointercancel"]) canvas.addEventListener(kind, (event) => touches.delete(event.pointerId));
  canvas.addEventListener("contextmenu", (event) => event.preventDefault());
  canvas.addEventListener("wheel", (event) => {
    event.preventDefault();
    zoom(Math.exp(event.deltaY * (event.deltaMode ? 0.05 : 0.0015)));
  }, { passive: false });

  const step = (by) => { slider.value = Number(slider.value) + by; sample(); };
  const flip = (id) => { element(id).checked = !element(id).checked; show(); };
  const choose = (kind) => { document.querySelector("input[value=" + kind + "]").checked = true; paint(); };
  const KEYS = {
    ArrowLeft: () => turn(-0.1, 0), ArrowRight: () => turn(0.1, 0), ArrowUp: () => turn(0, 0.1), ArrowDown: () => turn(0, -0.1),
    "+": () => zoom(0.9), "=": () => zoom(0.9), "-": () => zoom(1 / 0.9), "[": () => step(-1), "]": () => step(1), 0: home,
    c: () => flip("coarse"), b: () => flip("borders"), i: () => flip("irregular"), p: () => choose("plain"),
    s: () => choose("sharpness"), m: () => choose("misses")
  };
  window.addEventListener("keydown", (event) => {
    if (event.ctrlKey || event.altKey || event.metaKey || !KEYS[event.key]) return;
    // the panel's own elements keep their arrow keys
    if (event.key.startsWith("Arrow") && event.target.tagName === "INPUT") return;
    event.preventDefault();
    KEYS[event.key]();
  });

  // ---- the panel

  if (meshes.length > 1) for (const mesh of meshes) {
    const label = Object.assign(document.createElement("div"), { className: "name" });
    label.append(Object.assign(document.createElement("span"), { textContent: mesh.name }));
    element("names").append(label);
  }
  for (const [name, chosen, words] of [["--vertex", "irregularVertices", "vertices not of four corners"],
    ["--face", "irregularFaces", "faces not of four sides"]]) {
    const line = document.createElement("div"), dot = Object.assign(document.createElement("span"), { className: "dot" });
    dot.style.background = "var(" + name + ")";
    line.append(dot, meshes.map((mesh) => counted(mesh[chosen].length)).join(" and ") + " " + words);
    element("irregular-legend").append(line);
  }
  element("panel").open = !isNarrow();
  element("panel").addEventListener("toggle", draw);
  slider.addEventListener("input", sample);
  for (const id of ["coarse", "borders", "irregular"]) element(id).addEventListener("change", show);
  for (const one of document.querySelectorAll("input[name=colour]")) one.addEventListener("change", paint);
  element("home").addEventListener("click", home);
  window.addEventListener("resize", draw);
  const dark = matchMedia("(prefers-color-scheme: dark)");
  if (dark.addEventListener) dark.addEventListener("change", paint);
  sample();
  // for scripts: what is drawn, and how
  window.view = { meshes, sampled, scenes, seat, draw, renderer, drawn: true };
})();
