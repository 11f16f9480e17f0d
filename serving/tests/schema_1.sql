-- The tables of served documents, and the calls that clients and workers make of them. All that a client needs in any language is
-- make, submit, the table lines, and two channels: huckleport_client_ID, told of a document's id when that client's lines were answered
-- there, and huckleport_document_ID, told when a document has new lines.
create schema huckleport;

-- One row: the version of these tables, and how many databases there are over which documents are spread.
create table huckleport.settings (
    is_only boolean primary key default true check (is_only),
    tables int not null,
    databases int not null default 1 check (databases > 0)
);
insert into huckleport.settings (tables) values (1);

-- A worker has one lease for all of its documents; `until` is by this database's clock, as every time here is.
create table huckleport.workers (
    id bigint generated always as identity primary key,
    name text not null,
    version text not null,
    until timestamptz not null,
    started timestamptz not null default clock_timestamp(),
    documents int not null default 0,
    lines bigint not null default 0,
    memory bigint not null default 0
) with (fillfactor = 50);

-- `version` is that of the program that answered its first line. `owner` may write lines while `epoch` is the one that it claimed.
-- `attempts` counts the claims since a line was last recorded; from the third on the next one waits until `not_before`.
create table huckleport.documents (
    id bigint generated always as identity primary key,
    name text not null unique check (name <> '' and octet_length(name) <= 1024),
    version text,
    numbers bigint not null default 4294967295 check (numbers between 1 and 4294967295),
    line int not null default 1048576 check (line between 1 and 16777216),
    made timestamptz not null default clock_timestamp(),
    owner bigint,
    epoch bigint not null default 0,
    attempts int not null default 0,
    not_before timestamptz,
    fault text
) with (fillfactor = 70);
create index on huckleport.documents (owner) where owner is not null;

-- The log: what was answered. Only `record` writes it. It holds the document's row meanwhile, so no foreign key is asked for each line.
create table huckleport.lines (
    document bigint not null,
    number bigint not null check (number > 0),
    client uuid not null,
    request bigint not null,
    line bytea not null,
    reply bytea not null,
    primary key (document, number),
    unique (document, client, request)
);

-- What waits. Nothing here was acknowledged, so it need not outlive a crash: whoever sent it sends it again.
create unlogged table huckleport.requests (
    document bigint not null,
    id bigint generated always as identity,
    client uuid not null,
    request bigint not null check (request > 0),
    line bytea not null check (position('\x0a'::bytea in line) = 0 and octet_length(line) <= 16777216),
    primary key (document, id),
    unique (document, client, request)
);
alter table huckleport.requests set (autovacuum_vacuum_scale_factor = 0, autovacuum_vacuum_threshold = 20000, autovacuum_vacuum_cost_delay = 0);

-- What clients call. (The settings of functions keep their plans to look-ups by index, whatever the statistics say of a table that fills and
-- empties all the time, and however long the logs are.)

create function huckleport.check_databases(given int, known int) returns void language plpgsql as $$
begin
    if known <> given then
        raise exception 'the caller knows % databases, and there are %', given, known using errcode = 'invalid_parameter_value';
    end if;
end $$;

-- The document of that name, or null. `among` is how many databases the caller knows.
create function huckleport.find(given text, among int default 1) returns bigint language plpgsql as $$
begin
    perform huckleport.check_databases(among, (select s.databases from huckleport.settings s));
    return (select d.id from huckleport.documents d where d.name = given);
end $$;

-- The document of that name, which is made where it is not there, with these limits. None is made by who knows fewer databases than there
-- are: the row that says so is held meanwhile, so once it says more, all that was made before can be found.
create function huckleport.make(given text, among int default 1, numbers bigint default 4294967295, line int default 1048576)
returns bigint language plpgsql as $$
begin
    perform huckleport.check_databases(among, s.databases) from huckleport.settings s for share;
    insert into huckleport.documents (name, numbers, line) values (given, make.numbers, make.line) on conflict (name) do nothing;
    return (select d.id from huckleport.documents d where d.name = given);
end $$;

-- Hands lines in, the requests `first`, `first` + 1 and so on of that client. What was answered or waits already is left as it is.
create function huckleport.submit(document bigint, client uuid, first bigint, lines bytea[]) returns void language plpgsql
set enable_hashjoin = off set enable_mergejoin = off set enable_seqscan = off set enable_bitmapscan = off set enable_material = off as $$
begin
    insert into huckleport.requests (document, client, request, line)
    select submit.document, submit.client, submit.first + given.place - 1, given.line
    from unnest(submit.lines) with ordinality as given (line, place)
    where not exists (
        select from huckleport.lines l
        where l.document = submit.document and l.client = submit.client and l.request = submit.first + given.place - 1)
    order by given.place
    on conflict on constraint requests_document_client_request_key do nothing;
    perform pg_notify('huckleport_requests', submit.document::text);
end $$;

-- What workers call.

create function huckleport.register(name text, version text, lease interval) returns bigint language sql as $$
    insert into huckleport.workers (name, version, until) values (name, version, clock_timestamp() + lease) returning id
$$;

-- Renews a lease, and returns whether it had not ended before.
create function huckleport.renew(worker bigint, lease interval, documents int, lines bigint, memory bigint) returns boolean language sql as $$
    update huckleport.workers w
    set until = clock_timestamp() + renew.lease, documents = renew.documents, lines = renew.lines, memory = renew.memory
    where w.id = renew.worker and w.until > clock_timestamp()
    returning true
$$;

-- Claims documents with waiting lines that no worker has whose lease goes on: of those that are named, or of all.
-- (The workers are asked for once, ahead: a row that changed meanwhile is tested again by its new owner.)
create function huckleport.claim(worker bigint, program text, most int, named bigint[], avoided bigint[])
returns table (id bigint, epoch bigint, numbers bigint, line int) language sql as $$
    with free as (
        select d.id from huckleport.documents d
        where d.id in (select r.document from huckleport.requests r where claim.named is null or r.document = any (claim.named))
            and d.id <> all (claim.avoided)
            and (d.version is null or d.version = claim.program)
            and (d.not_before is null or d.not_before <= clock_timestamp())
            and (d.owner is null or d.owner <> all (array(select w.id from huckleport.workers w where w.until > clock_timestamp())))
        limit claim.most for no key update skip locked)
    update huckleport.documents d
    set owner = claim.worker, epoch = d.epoch + 1, version = claim.program, attempts = d.attempts + 1,
        not_before = case when d.attempts < 2 then null else clock_timestamp() + interval '0.1 s' * 2 ^ least(d.attempts, 9) end
    from free where d.id = free.id
    returning d.id, d.epoch, d.numbers, d.line
$$;

-- A piece of the logs of some documents, each behind a number: how many lines, the last one's number, the lines and the replies by newlines.
create function huckleport.log(documents bigint[], behind bigint[], most int, bytes bigint)
returns table (document bigint, count bigint, last bigint, lines bytea, replies bytea) language sql stable as $$
    select given.document, count(*), max(it.number), string_agg(it.line, '\x0a'::bytea order by it.number), string_agg(it.reply, '\x0a'::bytea order by it.number)
    from unnest(log.documents, log.behind) as given (document, behind)
    cross join lateral (
        select l.number, l.line, l.reply,
            sum(octet_length(l.line) + octet_length(l.reply)) over (order by l.number rows unbounded preceding) as upto
        from huckleport.lines l
        where l.document = given.document and l.number > given.behind
        order by l.number limit log.most) as it
    where it.upto <= log.bytes or it.number = given.behind + 1
    group by given.document
$$;

-- Tells clients and followers what was answered, and then takes what waits for some documents, so many lines and bytes of each.
create function huckleport.take(documents bigint[], most int, bytes bigint, clients uuid[], answered bigint[])
returns table (document bigint, ids bigint[], lines bytea) language plpgsql
set enable_hashjoin = off set enable_mergejoin = off set enable_seqscan = off set enable_bitmapscan = off set enable_material = off as $$
begin
    perform pg_notify('huckleport_client_' || it.client, it.document::text) from unnest(clients, answered) as it (client, document);
    perform pg_notify('huckleport_document_' || it.document, '') from (select distinct unnest(answered)) as it (document);
    return query
    select given.document, array_agg(it.id order by it.id), string_agg(it.line, '\x0a'::bytea order by it.id)
    from unnest(take.documents) as given (document)
    cross join lateral (
        select r.id, r.line,
            sum(octet_length(r.line)) over (order by r.id rows unbounded preceding) as upto,
            row_number() over (order by r.id) as place
        from huckleport.requests r
        where r.document = given.document
            and not exists (
                select from huckleport.lines l where l.document = r.document and l.client = r.client and l.request = r.request)
        order by r.id limit take.most) as it
    where it.upto <= take.bytes or it.place = 1
    group by given.document;
end $$;

-- Moves requests to the logs of their documents with their replies: for each line its document, its id among the requests, its number and
-- its reply. Only documents that the worker has under the epoch that it claimed are written; these are returned, and who was answered where.
-- Documents in `fresh` are recorded for the first time since they were claimed.
create function huckleport.record(
    worker bigint, documents bigint[], epochs bigint[], fresh bigint[], places bigint[], ids bigint[], numbers bigint[], replies bytea[])
returns table (held bigint[], clients uuid[], answered bigint[]) language plpgsql
set enable_hashjoin = off set enable_mergejoin = off set enable_seqscan = off set enable_bitmapscan = off set enable_material = off as $$
declare
    due bigint;
    moved bigint;
begin
    select array_agg(it.id) into held from (
        select d.id
        from huckleport.documents d join unnest(record.documents, record.epochs) as given (document, epoch) on d.id = given.document
        where d.owner = record.worker and d.epoch = given.epoch
        order by d.id for no key update of d) as it;
    select count(*) into due from unnest(record.places) as it (document) where it.document = any (held);
    with gone as (
        delete from huckleport.requests r
        using unnest(record.places, record.ids, record.numbers, record.replies) as given (document, id, number, reply)
        where given.document = any (held) and r.document = given.document and r.id = given.id
        returning r.document, given.number, r.client, r.request, r.line, given.reply
    ), put as (
        insert into huckleport.lines (document, number, client, request, line, reply) select * from gone
        returning lines.document, lines.client
    ), told as (select put.client, put.document, count(*) from put group by put.client, put.document)
    select sum(told.count), array_agg(told.client), array_agg(told.document) into moved, clients, answered from told;
    if coalesce(moved, 0) <> due then
        raise exception 'of % lines that were answered % waited', due, coalesce(moved, 0);
    end if;
    if cardinality(record.fresh) > 0 then
        update huckleport.documents d set attempts = 0, not_before = null, fault = null
        where d.id = any (record.fresh) and d.id = any (held);
    end if;
    return next;
end $$;

create function huckleport.drop_answered(worker bigint) returns table (document bigint, client uuid) language sql as $$
    with gone as (
        delete from huckleport.requests r
        where r.document in (select d.id from huckleport.documents d where d.owner = drop_answered.worker)
            and exists (select from huckleport.lines l where l.document = r.document and l.client = r.client and l.request = r.request)
        returning r.document, r.client)
    select distinct gone.document, gone.client from gone
$$;

-- The worker's own documents for which something waits. What was answered already (a retry that came late) is dropped, and its client told.
create function huckleport.sweep(worker bigint) returns setof bigint language plpgsql
set enable_hashjoin = off set enable_mergejoin = off set enable_material = off as $$
begin
    perform pg_notify('huckleport_client_' || it.client, it.document::text) from huckleport.drop_answered(sweep.worker) as it;
    return query
    select d.id from huckleport.documents d
    where d.owner = sweep.worker and d.id in (select r.document from huckleport.requests r);
end $$;

-- Hands documents on, for whichever worker comes first; with a fault, not at once.
create function huckleport.release(worker bigint, given bigint[], fault text default null) returns void language plpgsql as $$
begin
    update huckleport.documents d
    set owner = null, fault = coalesce(release.fault, d.fault),
        not_before = case when release.fault is null then d.not_before
            else clock_timestamp() + interval '0.1 s' * 2 ^ least(d.attempts, 9) end
    where d.owner = release.worker and d.id = any (release.given);
    perform pg_notify('huckleport_requests', 'released');
end $$;

-- Ends a worker, and hands on all that it had.
create function huckleport.leave(worker bigint) returns void language plpgsql as $$
begin
    update huckleport.documents d set owner = null where d.owner = leave.worker;
    delete from huckleport.workers w where w.id = leave.worker;
    perform pg_notify('huckleport_requests', 'released');
end $$;
