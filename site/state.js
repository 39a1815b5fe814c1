// What the page shows, all of it in one store.
import { Store } from "./store.js";

export const KINDS = ["shortest", "tree", "compact", "landmark"];
export const NUMBERINGS = ["depth-first", "tour"];
export const FORMATS = ["adjlist", "edgelist"];
export const TABS = ["network", "plan", "walk", "run", "figures", "about"];

// What is edited: the network and how it is planned, the script, the places of nodes.
export const EDITS = {
  topology: "", format: "adjlist", kind: "shortest", numbering: "depth-first", root: "", script: "", scriptBy: "", trace: "", isOwnTrace: false,
  restamps: "0", capacity: "16", landmarks: "", stretch: "300", places: "", manual: null,
};

// What is looked at.
export const LOOKS = { tab: "network", tool: "look", node: 0, from: 0, to: 0, picked: null, chosen: -1, step: 0, areRowsShown: false, areWeightsShown: false, sight: null };

// The explainer: the beat that it is at, and whether its last step mixes the numberings.
const TOUR = { view: "tour", beat: 0, isTourPlaying: false, isTourBegun: false, isMixed: true };

// What the engine and the drawing make of both.
const MADE = {
  origin: -1, graph: null, drawing: null, isStale: false, plan: null, plans: [], walk: null, texts: {}, rows: [], commands: [], steps: [], packets: [], moments: [], epochs: [],
  time: 0, last: 0, isPlaying: false, isRunDue: false, isLong: false, resumed: null, takesLandmarks: false, landmarkNodes: [],
};

export const store = new Store({ ...EDITS, ...LOOKS, ...TOUR, ...MADE });
