// A picture of the agents' tree: parents by lines, the rest of a separator by dashed bows.
/* global d3 */

const LONGEST = 14;
const short = (name) => (name.length > LONGEST ? `${name.slice(0, LONGEST - 1)}…` : name);

export class Tree {
  /** `nodes` have a name, a parent, a separator and cells, each behind its parent; `clicked` hears which one was clicked. */
  constructor(place, nodes, clicked = () => {}) {
    this.nodes = nodes;
    const longest = Math.max(...nodes.map((node) => short(node.name).length));
    this.half = Math.max(52, 4 * longest + 10);
    const root = d3.stratify().id((node) => node.name).parentId((node) => node.parent)(nodes);
    d3.tree().nodeSize([2 * this.half + 26, 96])(root);
    this.spots = new Map(root.descendants().map((one) => [one.id, { x: one.x, y: one.y }]));
    const xs = root.descendants().map((one) => one.x);
    const left = Math.min(...xs) - this.half - 30;
    const bow = root.height > 1 ? this.half + 8 * root.height : 0;
    const width = Math.max(...xs) - left + this.half + 30 + bow;
    const height = 96 * root.height + 110;
    d3.select(place).selectAll("*").remove();
    const svg = d3.select(place).append("svg").attr("viewBox", `${left} -42 ${width} ${height}`).attr("width", width).attr("height", height);
    this.links = svg.append("g").attr("class", "links");
    this.waiting = svg.append("g").attr("class", "letters");
    this.letters = svg.append("g").attr("class", "letters");
    const edges = nodes.flatMap((node) => this.edges(node));
    this.links.selectAll("path").data(edges).enter().append("path").attr("class", (edge) => edge.kind).attr("d", (edge) => this.way(edge.from, edge.to, edge.kind));
    const group = svg.selectAll("g.node").data(nodes).enter().append("g").attr("class", "node").attr("data-agent", (node) => node.name);
    group.attr("transform", (node) => `translate(${this.spots.get(node.name).x},${this.spots.get(node.name).y})`);
    group.on("click", (node) => clicked(node.name));
    group.append("rect").attr("x", -this.half).attr("y", -20).attr("width", 2 * this.half).attr("height", 40).attr("rx", 12);
    group.append("text").attr("class", "name").attr("y", -3).text((node) => short(node.name));
    group.append("text").attr("class", "state").attr("y", 13);
    group.append("text").attr("class", "small").attr("y", 34).text((node) => `${node.cells.toLocaleString("en")} cells`);
    group.append("title").text((node) => `${node.name}: separator ${node.separator.join(", ") || "none"}, ${node.cells.toLocaleString("en")} cells`);
    this.groups = group;
  }

  edges(node) {
    const edges = node.separator.map((other) => ({ from: node.name, to: other, kind: other === node.parent ? "parent" : "pseudo" }));
    if (node.parent !== null && !node.separator.includes(node.parent)) edges.push({ from: node.name, to: node.parent, kind: "joint" });
    return edges;
  }

  /** The way from one agent to another: straight to a neighbour in the tree, bent past those that lie between. */
  way(from, to, kind = "pseudo") {
    const a = this.spots.get(from);
    const b = this.spots.get(to);
    if (kind !== "pseudo") return `M${a.x},${a.y}L${b.x},${b.y}`;
    const bend = Math.max(a.x, b.x) + 2 * this.half + 10 + 0.12 * Math.abs(a.y - b.y);
    return `M${a.x},${a.y}Q${bend},${(a.y + b.y) / 2} ${b.x},${b.y}`;
  }

  kindOf(from, to) {
    const parent = (child, other) => this.nodes.find((node) => node.name === child)?.parent === other;
    return parent(from, to) || parent(to, from) ? "parent" : "pseudo";
  }

  /** Words below each agent's name, and a class for each. */
  tell(words, kinds = () => "") {
    this.groups.attr("class", (node) => `node ${kinds(node.name)}`);
    this.groups.select(".state").text((node) => words(node.name));
  }

  /** Shows letters on their way: from, to, and a word each; they move while time is given. */
  send(letters, milliseconds = 0) {
    this.letters.selectAll("*").interrupt();
    this.letters.selectAll("*").remove();
    for (const letter of letters) {
      const kind = this.kindOf(letter.from, letter.to);
      const path = this.letters.append("path").attr("class", "way").attr("d", this.way(letter.from, letter.to, kind));
      const length = path.node().getTotalLength();
      const dot = this.letters.append("g").attr("class", "letter");
      dot.append("circle").attr("r", 9);
      dot.append("text").attr("y", 4).text(letter.word);
      dot.append("title").text(letter.title ?? "");
      const at = (part) => {
        const { x, y } = path.node().getPointAtLength(part * length);
        return `translate(${x},${y})`;
      };
      dot.attr("transform", at(milliseconds ? 0 : 0.5));
      if (milliseconds) dot.transition().duration(milliseconds).attrTween("transform", () => (part) => at(0.62 * part));
    }
  }
  /** Shows how many messages are on their way from whom to whom, near who sent them. */
  wait(messages) {
    this.waiting.selectAll("*").remove();
    const pairs = new Map();
    for (const message of messages) {
      const key = JSON.stringify([message.from, message.to]);
      pairs.set(key, [...(pairs.get(key) ?? []), message]);
    }
    for (const group of pairs.values()) {
      const { from, to } = group[0];
      const path = this.waiting.append("path").attr("class", "route").attr("d", this.way(from, to, this.kindOf(from, to)));
      const { x, y } = path.node().getPointAtLength(0.36 * path.node().getTotalLength());
      const dot = this.waiting.append("g").attr("class", "waiting").attr("transform", `translate(${x},${y})`);
      dot.append("circle").attr("r", 7);
      dot.append("text").attr("y", 3.5).text(group.length);
      dot.append("title").text(group.map((message) => `${from} → ${to}: ${message.sentence}`).join("\n"));
    }
  }
}
