#!/bin/sh
# Makes segdagd-many, the server of many logs, in the folder out, of the library in a folder and the sources in tools/segdagd_many. With the word
# postgres behind it that is segdagd-many-postgres, whose logs may be in a database, of libsegdag_postgres.a in that folder.
#     CFLAGS=-g FOLDER=out sh tools/segdagd_build.sh LIBRARY_FOLDER [postgres]
set -eu
library=$(realpath "$1")
cd "$(dirname "$0")/.."
made=${FOLDER:-out}
mkdir -p "$made"
case ${2:-} in
    "") program=segdagd-many; set -- "$library/libsegdag.a" ;;
    postgres) program=segdagd-many-postgres; set -- -DSEGDAG_POSTGRES -Ibindings/postgres "$library/libsegdag_postgres.a" -lpq ;;
    *) echo "segdagd_build: '$2' isn't known: the only word is postgres" >&2; exit 2 ;;
esac
# shellcheck disable=SC2086
"${CC:-cc}" -std=c11 -O2 -Wall -Wextra -pedantic ${CFLAGS:-} -Ibindings/c -pthread tools/segdagd_many/*.c "$@" -o "$made/$program"
