// A store's values for tests, as an example sets them.
import { readTopology } from "../reading.js";

export function exampleNow(example) {
  const { graph } = readTopology(example.topology, example.format);
  return {
    numbering: "depth-first", restamps: "0", capacity: "16", landmarks: "", stretch: "300", scriptBy: "example", isOwnTrace: false, trace: "", manual: null, places: "", origin: 0, ...example, graph,
    tab: "network", step: 0, time: 0, last: 0, chosen: -1, rows: [], node: 0, from: 0, to: graph.names.length - 1, areWeightsShown: false, areRowsShown: true,
  };
}
