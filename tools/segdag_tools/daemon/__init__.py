"""What segdagd is made of: `command` reads its words, `doors` holds its socket and its log, `server` is its loop, `clients` and `runs` are what
it stands between."""
