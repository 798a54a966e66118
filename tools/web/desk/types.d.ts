// What the checker of types doesn't know of browsers, and what the page's own script gives to the desk.
declare var DecompressionStream: any;
