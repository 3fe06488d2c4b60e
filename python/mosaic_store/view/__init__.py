"""A map of a store in the browser: shaded relief, flow paths, watersheds, and edits that are tried before they are kept."""
