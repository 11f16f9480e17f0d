-- The tables that version 3 added, for new databases and for older ones.

-- Old parts of logs: each row has a document's lines `first` to `last`, in one piece that PostgreSQL compresses. Lines and replies are joined by
-- newlines, clients and requests by commas. The segments of a document have no gap, and the rest of its log is in `lines`.
create table huckleport.segments (
    document bigint not null,
    first bigint not null check (first > 0),
    last bigint not null check (last >= first),
    clients text not null,
    requests text not null,
    lines bytea not null,
    replies bytea not null,
    primary key (document, last)
);

-- The smallest and the largest request that each client has in a segment. A client's requests grow along a log, so one row has a request or none.
create table huckleport.segment_clients (
    document bigint not null,
    client uuid not null,
    first_request bigint not null,
    last_request bigint not null,
    last bigint not null,
    primary key (document, client, last_request)
);

do $$
begin
    alter table huckleport.segments alter column clients set compression lz4, alter column requests set compression lz4,
        alter column lines set compression lz4, alter column replies set compression lz4;
exception
    when feature_not_supported then
        raise notice 'this server has no lz4, and compresses by its own way';
end $$;
