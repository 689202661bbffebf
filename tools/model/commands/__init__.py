"""The map of `congee run`, written a second time from docs/TEXTS.md and the rules of the tree, by which tools/dev/try-commands tries it."""
