-- The tables of logs in PostgreSQL, version 1. Its owner is whoever runs this in a database, and needs no more than the right to make a schema:
--     psql --single-transaction -v ON_ERROR_STOP=1 -f schema.sql DATABASE
-- Who may read and write is said by rights.sql. A table that is there already makes this end, with nothing changed.

create schema segdag;

-- One row: what the library asks for before anything else.
create table segdag.version (version integer not null);
insert into segdag.version values (1);

-- The logs. A log that is written anew gets the next generation: who follows it, and who writes it, ends with REPLACED.
-- may_lock never changes. Who may update it may lock a row, and so write; and can't change anything of the log.
create table segdag.log (
    id bigint generated always as identity primary key,
    name text not null unique check (name <> ''),
    generation bigint not null default 1,
    wants_standby boolean not null default false,
    may_lock boolean not null default true check (may_lock)
);

-- The bytes of the logs, without the closed gate at the end of each. A change is one row, or more where it is longer than 16 MB; the bytes of
-- a row begin at the place `at` of the log, and the next row's begin where they end. The key keeps two writers from storing at one place. The chain
-- is the SHA-256 of the chain before it (of nothing, in front of the first row) and the bytes: two logs with the same chain are the same up to there.
create table segdag.change (
    log bigint not null references segdag.log (id) on delete cascade,
    generation bigint not null,
    at bigint not null check (at >= 0),
    bytes bytea not null check (length(bytes) between 1 and 16777216),
    chain bytea not null check (length(chain) = 32),
    stored timestamptz not null default now(),
    primary key (log, generation, at)
);

-- Most of a payload are names, which no compression makes shorter.
alter table segdag.change alter column bytes set storage external;

-- What is wrong with a log's rows, and nothing where nothing is: a gap, a chain that isn't that of the bytes.
create function segdag.faults(wanted text) returns table (at bigint, fault text) language sql stable as $$
    with rows as (
        select c.at, c.bytes, c.chain,
            coalesce(lag(c.at + length(c.bytes)) over w, 0) as due,
            coalesce(lag(c.chain) over w, ''::bytea) as before
        from segdag.log l join segdag.change c on c.log = l.id and c.generation = l.generation
        where l.name = wanted window w as (order by c.at)
    )
    select rows.at, 'the row before it ends at ' || due from rows where rows.at <> due
    union all
    select rows.at, 'its chain is not that of its bytes' from rows where rows.at = due and rows.chain <> sha256(before || rows.bytes)
$$;
