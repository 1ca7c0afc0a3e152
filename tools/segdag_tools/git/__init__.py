"""What `git segdag` is made of: `repository` asks git, `place` keeps the log, `store` speaks of commits to the program, `expressions` reads
what `query` is given, `sync` and `questions` are the commands. The lines themselves are of `lines`, a module of the package around."""
