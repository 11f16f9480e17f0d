-- The tables of served documents, version 4. Clients, workers and operators call the functions of calls.sql, and roles.sql says who may.
create schema huckleport;

-- One row: the version of these tables, the count of databases over which documents are spread, and the limits of all documents.
-- `memory` and `seconds` bound the world of a document and the time of one of its lines. `document_` and `client_` bound the lines that wait.
create table huckleport.settings (
    is_only boolean primary key default true check (is_only),
    tables int not null,
    databases int not null default 1 check (databases > 0),
    memory bigint not null default 268435456 check (memory >= 16777216),
    seconds float not null default 10 check (seconds > 0),
    document_lines bigint not null default 50000 check (document_lines > 0),
    document_bytes bigint not null default 67108864 check (document_bytes > 0),
    client_lines bigint not null default 100000 check (client_lines > 0),
    client_bytes bigint not null default 134217728 check (client_bytes > 0),
    connections int not null default 1000 check (connections > 0),
    questions text not null default '^$'
);
insert into huckleport.settings (tables) values (4);

-- A worker has one lease of the length `lease` for all of its documents. `until` is by this database's clock, as every time here is.
create table huckleport.workers (
    id bigint generated always as identity primary key,
    name text not null,
    version text not null,
    until timestamptz not null,
    started timestamptz not null default clock_timestamp(),
    documents int not null default 0,
    lines bigint not null default 0,
    memory bigint not null default 0,
    lease interval not null default interval '10 s'
) with (fillfactor = 50);

-- `version` is that of the program that answered its last line. `owner` may write lines while `epoch` is the one that it claimed.
-- `attempts` counts the claims since a line was last recorded. From the third on the next one waits until `not_before`.
create table huckleport.documents (
    id bigint generated always as identity primary key,
    name text not null unique check (name <> '' and octet_length(name) <= 1024),
    version text,
    numbers bigint not null default 4294967295 check (numbers between 1 and 4294967295),
    line int not null default 1048576 check (line between 1 and 16777216),
    made timestamptz not null default clock_timestamp(),
    owner bigint,
    epoch bigint not null default 0,
    attempts int not null default 0,
    not_before timestamptz,
    fault text
) with (fillfactor = 70);
create index on huckleport.documents (owner) where owner is not null;

-- The log: the lines that change a document, with their replies. `compress` moves its old parts to `segments`. Whoever writes it, as `record`
-- and `drop_line` do, holds the document's row meanwhile, so no foreign key is checked for each line.
create table huckleport.lines (
    document bigint not null,
    number bigint not null check (number > 0),
    client uuid not null,
    request bigint not null,
    line bytea not null,
    reply bytea not null,
    primary key (document, number),
    unique (document, client, request)
);

-- The lines that wait. None of them was acknowledged, so they need not outlive a crash: their clients send them again.
create unlogged table huckleport.requests (
    document bigint not null,
    id bigint generated always as identity,
    client uuid not null,
    request bigint not null check (request > 0),
    line bytea not null check (position('\x0a'::bytea in line) = 0 and octet_length(line) <= 16777217),
    at timestamptz not null default clock_timestamp(),
    primary key (document, id),
    unique (client, document, request)
);
alter table huckleport.requests set (autovacuum_vacuum_scale_factor = 0, autovacuum_vacuum_threshold = 20000, autovacuum_vacuum_cost_delay = 0);

