-- The tables that version 2 added, for new databases and for those of version 1.

-- Replies to questions, which change nothing and are not in the log. Each stays until its client has taken it, or for a minute.
create unlogged table huckleport.answers (
    document bigint not null,
    client uuid not null,
    request bigint not null,
    line bytea not null,
    reply bytea not null,
    at timestamptz not null default clock_timestamp(),
    primary key (document, client, request)
);
alter table huckleport.answers set (autovacuum_vacuum_scale_factor = 0, autovacuum_vacuum_threshold = 20000, autovacuum_vacuum_cost_delay = 0);

-- Which role may use which document.
create table huckleport.grants (
    document bigint not null references huckleport.documents (id) on delete cascade,
    role text not null,
    primary key (document, role)
);

-- Counters for whoever watches: documents that were claimed after a worker was gone, and documents that were handed on with a fault.
create sequence huckleport.take_overs minvalue 0 start 0;
create sequence huckleport.faults minvalue 0 start 0;
select setval('huckleport.take_overs', 0), setval('huckleport.faults', 0);
