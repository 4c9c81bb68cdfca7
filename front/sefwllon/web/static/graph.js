// A picture of a problem's graph: who shares a table with whom, with the values that were chosen.
/* global d3 */

const ROUNDS = 300;
const MOST = 400; // how many variables are drawn

export function drawGraph(place, view, chosen = {}) {
  d3.select(place).selectAll("*").remove();
  if (view.variables.length > MOST) {
    d3.select(place).append("p").attr("class", "quiet").text(`${view.variables.length} variables are too many to be drawn; ${MOST} are the most.`);
    return;
  }
  const nodes = view.variables.map((variable) => ({ ...variable }));
  const links = view.edges.map(([source, target]) => ({ source, target }));
  const size = 300 + 14 * Math.sqrt(nodes.length) * 5;
  const forces = d3.forceSimulation(nodes).force("links", d3.forceLink(links).distance(70)).force("away", d3.forceManyBody().strength(-180)).force("middle", d3.forceCenter(size / 2, size / 2)).force("apart", d3.forceCollide(30)).stop();
  for (let round = 0; round < ROUNDS; round += 1) forces.tick();
  const pad = 60;
  const [left, right] = d3.extent(nodes, (node) => node.x);
  const [top, bottom] = d3.extent(nodes, (node) => node.y);
  const [wide, high] = [right - left + 2 * pad, bottom - top + 2 * pad];
  const svg = d3.select(place).append("svg").attr("viewBox", `${left - pad} ${top - pad} ${wide} ${high}`).attr("width", wide).attr("height", high);
  const lines = svg.append("g").attr("class", "links").selectAll("line").data(links).enter().append("line");
  const values = [...new Set(nodes.map((node) => chosen[node.name]).filter((value) => value !== undefined))];
  const colour = d3.scaleOrdinal(values, d3.schemeSet3);
  const group = svg.selectAll("g.node").data(nodes).enter().append("g").attr("class", "node").attr("data-variable", (node) => node.name);
  group.append("ellipse").attr("rx", (node) => Math.max(20, 4 * Math.min(14, node.name.length) + 8)).attr("ry", 17).style("fill", (node) => (chosen[node.name] === undefined ? null : colour(chosen[node.name])));
  group.append("text").attr("class", "name").attr("y", 4).text((node) => (node.name.length > 14 ? `${node.name.slice(0, 13)}…` : node.name));
  group.append("text").attr("class", "small value").attr("y", 30).text((node) => chosen[node.name] ?? `${node.values.length} values`);
  group.append("title").text((node) => `${node.name}: ${node.values.slice(0, 30).join(", ")}`);
  const put = () => {
    lines.attr("x1", (link) => link.source.x).attr("y1", (link) => link.source.y).attr("x2", (link) => link.target.x).attr("y2", (link) => link.target.y);
    group.attr("transform", (node) => `translate(${node.x},${node.y})`);
  };
  put();
  group.call(
    d3.drag().on("drag", (node) => {
      node.x = d3.event.x;
      node.y = d3.event.y;
      put();
    }),
  );
}
