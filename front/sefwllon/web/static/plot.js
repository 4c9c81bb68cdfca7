// The root's bounds over the messages of a run, with a cursor at the event that is shown.
/* global d3 */

const [WIDE, HIGH, LEFT, TOP, RIGHT, BOTTOM] = [1300, 200, 60, 16, 24, 40];

export class Plot {
  /** `moments` have events, deliveries, lower and upper; `chose` hears at which number of messages somebody clicked. */
  constructor(place, moments, cost, chose) {
    d3.select(place).selectAll("*").remove();
    const last = Math.max(1, d3.max(moments, (moment) => moment.deliveries));
    const bounds = moments.flatMap((moment) => [moment.lower, moment.upper]).filter((bound) => bound !== null);
    this.x = d3.scaleLinear([0, last], [LEFT, WIDE - RIGHT]);
    const y = d3.scaleLinear(d3.extent([...bounds, cost]), [HIGH - BOTTOM, TOP]).nice();
    const svg = d3.select(place).append("svg").attr("viewBox", `0 0 ${WIDE} ${HIGH}`).attr("class", "plot");
    svg.append("g").attr("class", "axis").attr("transform", `translate(0,${HIGH - BOTTOM})`).call(d3.axisBottom(this.x).ticks(8));
    svg.append("g").attr("class", "axis").attr("transform", `translate(${LEFT},0)`).call(d3.axisLeft(y).ticks(6));
    svg.append("text").attr("class", "small").attr("x", (LEFT + WIDE) / 2).attr("y", HIGH - 6).text("messages delivered");
    const line = (which) =>
      d3.line().curve(d3.curveStepAfter).defined((moment) => moment[which] !== null).x((moment) => this.x(moment.deliveries)).y((moment) => y(moment[which]))(moments);
    for (const which of ["upper", "lower"]) {
      svg.append("path").attr("class", which).attr("d", line(which));
    }
    svg.append("text").attr("class", "small key upper-key").attr("x", WIDE - RIGHT).attr("y", TOP + 4).text("upper bound of the root");
    svg.append("text").attr("class", "small key lower-key").attr("x", WIDE - RIGHT).attr("y", TOP + 18).text("lower bound of the root");
    svg.append("circle").attr("class", "cost").attr("cx", this.x(last)).attr("cy", y(cost)).attr("r", 4).append("title").text(`the report's cost ${cost}`);
    this.cursor = svg.append("line").attr("class", "cursor").attr("y1", TOP).attr("y2", HIGH - BOTTOM);
    svg.on("click", () => chose(Math.max(0, this.x.invert(d3.mouse(svg.node())[0]))));
    this.at(0);
  }

  at(deliveries) {
    this.cursor.attr("x1", this.x(deliveries)).attr("x2", this.x(deliveries)).attr("data-deliveries", deliveries);
  }
}
