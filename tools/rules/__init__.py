"""Lists of patterns from the rule sets of other programs: what `tools/lists` is made of."""
