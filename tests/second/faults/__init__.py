"""The faults that `mutants` plants, in lists of rows: the rule, the fault in words, the file, the text to replace (its first
place), and the text put there."""
