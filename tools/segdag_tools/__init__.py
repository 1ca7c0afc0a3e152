"""The tools of segdag. `lines` speaks to the program and to its daemon, `found` says where the program is, `daemon` is segdagd, `git` is
`git segdag`, and `ssh` is segdag-ssh. The store in the process itself is another package, `segdag`."""
