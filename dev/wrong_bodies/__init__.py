"""What dev/wrong-bodies is made of, a module for each thing:

- crates: the crates of the repository, and which stands on which;
- functions: the functions of a file, and where their proofs are;
- edits: reading edits, applying them, and why one can't be tried;
- grouping: which edits are tried in one check, and in which order;
- copies: the copy of a crate that a check is of;
- clock: running commands while there is time;
- lanes: how many commands run side by side, by the memory that is free;
- prover: how the kit is called;
- judging: what the kit says of an edit, read by its wording;
- trying: from groups of edits to how many were refused.
"""
