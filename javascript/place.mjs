// Where the two modules and api.json are. A packed package has another file in the place of this one.
export const PLACE = new URL('../dist/', import.meta.url);
