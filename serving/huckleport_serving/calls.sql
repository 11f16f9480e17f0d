-- The functions that clients, workers and operators call. They run with the rights of the owner of the tables, and roles.sql grants the calls.
-- A client in any language needs enter, make, submit, replies, entries, and two channels. The channel huckleport_client_ID notifies of a document's
-- id when lines of that client were answered there. The channel huckleport_document_ID notifies when a document has new lines.
--
-- (The planner settings keep plans to index look-ups, whatever the statistics say of tables that fill and empty all the time.)

-- Every time here. (One place, so that a test can move it.)
create function huckleport.now() returns timestamptz language sql as $$ select clock_timestamp() $$;

-- Whether a lease is running. One that ends later than its length from now was renewed before the clock was set back, and has ended.
create function huckleport.is_running(until timestamptz, lease interval) returns boolean language sql as $$
    select is_running.until > huckleport.now() and is_running.until <= huckleport.now() + is_running.lease
$$;

-- ---- who may do what

create function huckleport.is_operator() returns boolean language sql stable as $$
    select pg_has_role(session_user, n.nspowner, 'member')
        or exists (select from pg_roles r where r.rolname = 'huckleport_operator' and pg_has_role(session_user, r.oid, 'member'))
    from pg_namespace n where n.nspname = 'huckleport'
$$;

-- Refuses a role to which one of the documents is not granted, and returns true otherwise. (As an expression, a call takes less than as a query.)
create function huckleport.check_granted(variadic documents bigint[]) returns boolean language plpgsql stable as $$
declare
    refused bigint;
begin
    -- (its callers run as the owner: whoever is that role has all rights, which is fast to see)
    if pg_has_role(session_user, current_user, 'member') then
        return true;
    end if;
    select min(it.document) into refused from unnest(documents) as it (document)
    where not exists (select from huckleport.grants g where g.document = it.document and g.role = session_user);
    if refused is not null and not huckleport.is_operator() then
        raise exception 'document % is not granted to %', refused, session_user using errcode = 'insufficient_privilege';
    end if;
    return true;
end $$;

create function huckleport.grant_document(given text, role text) returns void language plpgsql
security definer set search_path = pg_catalog, pg_temp set jit = off as $$
begin
    insert into huckleport.grants (document, role)
    select d.id, r.rolname from huckleport.documents d, pg_roles r where d.name = grant_document.given and r.rolname = grant_document.role
    on conflict do nothing;
    if not exists (select from huckleport.grants g join huckleport.documents d on d.id = g.document
            where d.name = grant_document.given and g.role = grant_document.role) then
        raise exception 'there is no document %, or no role %', given, role using errcode = 'no_data_found';
    end if;
end $$;

create function huckleport.revoke_document(given text, role text) returns void language sql
security definer set search_path = pg_catalog, pg_temp set jit = off as $$
    delete from huckleport.grants g using huckleport.documents d
    where d.id = g.document and d.name = revoke_document.given and g.role = revoke_document.role
$$;

-- ---- old parts of logs

-- The lines of a segment. (The form `escape` has no zero byte, so it is a text, and it leaves newlines as they are. An empty line that is alone
-- is split into none.)
create function huckleport.opened(segment huckleport.segments)
returns table (number bigint, client uuid, request bigint, line bytea, reply bytea) language sql stable as $$
    select segment.first + it.place - 1, it.client::uuid, it.request::bigint, decode(coalesce(it.line, ''), 'escape'), decode(coalesce(it.reply, ''), 'escape')
    from unnest(string_to_array(segment.clients, ','), string_to_array(segment.requests, ','),
        string_to_array(encode(segment.lines, 'escape'), E'\n'), string_to_array(encode(segment.replies, 'escape'), E'\n'))
        with ordinality as it (client, request, line, reply, place)
$$;

-- All lines of all logs, whether they are in a segment or not.
create view huckleport.log_lines as
    select l.document, l.number, l.client, l.request, l.line, l.reply from huckleport.lines l
    union all
    select s.document, it.number, it.client, it.request, it.line, it.reply from huckleport.segments s cross join lateral huckleport.opened(s) as it;

-- Returns the last number of a piece of a log that begins in a segment. The piece has whole segments of at most `most` lines and `bytes` bytes, or
-- a single one. The number is null if the piece begins behind all segments. (Functions that read a log are stable. So all their queries see one
-- state, also while lines are moved.)
create function huckleport.segments_end(document bigint, behind bigint, most int, bytes bigint) returns bigint language plpgsql stable as $$
declare
    one record;
begin
    select s.first, s.last into one from huckleport.segments s
    where s.document = segments_end.document and s.last > segments_end.behind order by s.last limit 1;
    if one.first is distinct from behind + 1 then
        return one.last;
    end if;
    return greatest(one.last, (select max(it.last) from (
        select s.last, sum(octet_length(s.lines) + octet_length(s.replies)) over (order by s.last rows unbounded preceding) as upto
        from huckleport.segments s
        where s.document = segments_end.document and s.last > segments_end.behind and s.last <= segments_end.behind + segments_end.most) as it
        where it.upto <= segments_end.bytes));
end $$;

-- A client's lines in segments, with requests from one to another.
create function huckleport.moved(document bigint, client uuid, first bigint, last bigint)
returns table (request bigint, line bytea, reply bytea) language sql stable as $$
    select it.request, it.line, it.reply
    from huckleport.segment_clients c
    join huckleport.segments s on s.document = c.document and s.last = c.last
    cross join lateral huckleport.opened(s) as it
    where c.document = moved.document and c.client = moved.client and c.last_request >= moved.first and c.first_request <= moved.last
        and it.client = moved.client and it.request between moved.first and moved.last
$$;

-- Whether a request is that of a line in a segment. (To look into segment_clients first is faster: most requests are above all that it has.)
create function huckleport.is_moved(document bigint, client uuid, request bigint) returns boolean language sql stable as $$
    select exists (
        select from huckleport.segment_clients c
        join huckleport.segments s on s.document = c.document and s.last = c.last
        cross join lateral unnest(string_to_array(s.clients, ','), string_to_array(s.requests, ',')) as it (client, request)
        where c.document = is_moved.document and c.client = is_moved.client and is_moved.request between c.first_request and c.last_request
            and it.request = is_moved.request::text and it.client = is_moved.client::text)
$$;

-- The largest request of a client in segments, or null.
create function huckleport.last_moved(document bigint, client uuid) returns bigint language sql stable as $$
    select max(c.last_request) from huckleport.segment_clients c where c.document = last_moved.document and c.client = last_moved.client
$$;

-- Returns replies to a client's requests behind a number, of its lines in segments: at least the first `most` of them.
create function huckleport.moved_replies(document bigint, client uuid, behind bigint, most int)
returns table (request bigint, reply bytea) language plpgsql stable as $$
declare
    it record;
    count bigint := 0;
    more bigint;
begin
    for it in select c.last_request from huckleport.segment_clients c
        where c.document = moved_replies.document and c.client = moved_replies.client and c.last_request > moved_replies.behind order by c.last_request
    loop
        return query select m.request, m.reply from huckleport.moved(document, client, behind + 1, it.last_request) as m;
        get diagnostics more = row_count;
        count := count + more;
        exit when count >= most;
        behind := it.last_request;
    end loop;
end $$;

-- ---- what clients call

-- Begins the session of a client on this connection. A client that runs in another process is refused, and so is one connection too many.
create function huckleport.enter(client uuid) returns void language plpgsql
security definer set search_path = pg_catalog, pg_temp set jit = off as $$
declare
    most int;
    count int;
begin
    if not pg_try_advisory_lock(hashtextextended(enter.client::text, 18512)) then
        raise exception 'client % is in use by another process', client using errcode = 'HP003';
    end if;
    perform pg_advisory_lock_shared(18512, 1);
    select s.connections into most from huckleport.settings s;
    select count(*) into count from pg_locks l
    where l.locktype = 'advisory' and l.classid = 18512 and l.objid = 1 and l.objsubid = 2
        and l.database = (select d.oid from pg_database d where d.datname = current_database());
    if count > most then
        perform pg_advisory_unlock_shared(18512, 1), pg_advisory_unlock(hashtextextended(enter.client::text, 18512));
        raise exception 'there are % clients already', most using errcode = 'HP004', hint = 'The setting `connections` is their limit.';
    end if;
end $$;

create function huckleport.check_databases(given int) returns void language plpgsql as $$
declare
    known int;
begin
    select s.databases into known from huckleport.settings s;
    if known <> given then
        raise exception 'the caller knows % databases, and there are %', given, known using errcode = 'invalid_parameter_value';
    end if;
end $$;

-- The document of that name, or null. `among` is how many databases the caller knows.
create function huckleport.find(given text, among int default 1) returns bigint language plpgsql
security definer set search_path = pg_catalog, pg_temp set jit = off as $$
declare
    found bigint;
begin
    perform huckleport.check_databases(among);
    select d.id into found from huckleport.documents d where d.name = given;
    if found is not null then
        perform huckleport.check_granted(found);
    end if;
    return found;
end $$;

-- The document of that name. It is made with these limits if there is none, which an operator may do. A caller that knows fewer databases
-- than there are makes none: the row with their count is locked meanwhile.
create function huckleport.make(given text, among int default 1, numbers bigint default 4294967295, line int default 1048576)
returns bigint language plpgsql security definer set search_path = pg_catalog, pg_temp set jit = off as $$
declare
    made bigint := huckleport.find(given, among);
begin
    if made is not null then
        return made;
    end if;
    if not huckleport.is_operator() then
        raise exception 'there is no document %, and % may make none', given, session_user using errcode = 'insufficient_privilege';
    end if;
    perform from huckleport.settings s for share;
    perform huckleport.check_databases(among);
    insert into huckleport.documents (name, numbers, line) values (given, make.numbers, make.line) on conflict (name) do nothing;
    return (select d.id from huckleport.documents d where d.name = given);
end $$;

-- The limits of a document.
create function huckleport.about(document bigint) returns table (numbers bigint, line int) language plpgsql
security definer set search_path = pg_catalog, pg_temp set jit = off as $$
begin
    perform huckleport.check_granted(document);
    return query select d.numbers, d.line from huckleport.documents d where d.id = about.document;
end $$;

-- The largest request of a client that waits or was answered.
create function huckleport.last_request(document bigint, client uuid) returns bigint language plpgsql
security definer set search_path = pg_catalog, pg_temp set jit = off set enable_seqscan = off as $$
begin
    perform huckleport.check_granted(document);
    return greatest(0, huckleport.last_moved(document, client),
        (select max(l.request) from huckleport.lines l where l.document = last_request.document and l.client = last_request.client),
        (select max(r.request) from huckleport.requests r where r.document = last_request.document and r.client = last_request.client),
        (select max(a.request) from huckleport.answers a where a.document = last_request.document and a.client = last_request.client));
end $$;

-- Refuses lines while more of them wait than the settings allow. To count them takes as long as they are many. So they are counted once for a
-- 64th of a limit that was handed in, and those of a client over all documents once for a 16th, on average. Small limits are exact.
create function huckleport.check_waiting(document bigint, client uuid) returns void language plpgsql as $$
declare
    most record;
    count bigint;
    size bigint;
begin
    select s.document_lines, s.document_bytes, s.client_lines, s.client_bytes into most from huckleport.settings s;
    if document is not null then
        select count(*), sum(octet_length(r.line)) into count, size from huckleport.requests r where r.document = check_waiting.document;
        if count > most.document_lines or size > most.document_bytes then
            raise exception '% lines of % bytes would wait for document %', count, size, document
                using errcode = 'HP005', hint = 'The settings `document_lines` and `document_bytes` are the limit.';
        end if;
    end if;
    if client is not null then
        select count(*), sum(octet_length(r.line)) into count, size from huckleport.requests r where r.client = check_waiting.client;
        if count > most.client_lines or size > most.client_bytes then
            raise exception '% lines of % bytes of client % would wait', count, size, client
                using errcode = 'HP006', hint = 'The settings `client_lines` and `client_bytes` are the limit.';
        end if;
    end if;
end $$;

-- Whether lines that were put are to be counted. It is drawn, by the part of the limit that they are, so no order of large and small lines of
-- several clients passes uncounted. Limits below 1,000 lines or 1 MiB are checked each time.
create function huckleport.is_due(lines bigint, bytes bigint, parts int, put int, put_bytes bigint) returns boolean language sql volatile as $$
    select lines < 1000 or bytes < 1048576 or random() < parts * greatest(put / lines::float, put_bytes / bytes::float)
$$;

-- Hands lines in, as the requests `first`, `first` + 1 and so on of that client. A request that waits or was answered stays as it is if it is
-- the same line, and the call is refused if it is another one. A line that is too long for the document is stored up to the byte behind its
-- limit, so its reply is `line-too-long`. (Each statement within takes 10 to 20 microseconds, so there are two.)
create function huckleport.submit(document bigint, client uuid, first bigint, lines bytea[]) returns void language plpgsql
security definer set search_path = pg_catalog, pg_temp set jit = off set plan_cache_mode = force_generic_plan set enable_seqscan = off set enable_bitmapscan = off as $$
declare
    granted constant boolean := huckleport.check_granted(document);
    -- (the size of the array is not below that of its lines)
    size constant int := pg_column_size(lines);
    put int;
    it record;
begin
    insert into huckleport.requests (document, client, request, line)
    select d.id, submit.client, submit.first + given.place - 1, substring(given.line for d.line + 1)
    from huckleport.documents d cross join unnest(submit.lines) with ordinality as given (line, place)
    where d.id = submit.document
    order by given.place
    on conflict on constraint requests_client_document_request_key do nothing;
    get diagnostics put = row_count;
    -- (Another statement, so it also sees lines that were recorded while the first one waited for a worker's row.)
    select huckleport.is_due(s.document_lines, s.document_bytes, 64, put, size) as counts_document,
        huckleport.is_due(s.client_lines, s.client_bytes, 16, put, size) as counts_client,
        exists (select from huckleport.lines l
            where l.document = submit.document and l.client = submit.client and l.request >= submit.first)
        or exists (select from huckleport.answers a
            where a.document = submit.document and a.client = submit.client and a.request >= submit.first)
        or exists (select from huckleport.segment_clients c
            where c.document = submit.document and c.client = submit.client and c.last_request >= submit.first) as are_known,
        pg_notify('huckleport_requests', submit.document::text)
    into strict it from huckleport.settings s;
    if it.are_known or put < cardinality(lines) then
        perform huckleport.check_same(document, client, first, first + cardinality(lines) - 1, lines);
    end if;
    if put > 0 and it.counts_document then
        perform huckleport.check_waiting(document, null);
    end if;
    if put > 0 and it.counts_client then
        perform huckleport.check_waiting(null, client);
    end if;
end $$;

-- Refuses other lines under requests that wait or were answered, and removes those from the waiting ones that were answered. A number that is
-- not the client's last and was not recorded was a question's, so it may be a question again, and nothing else.
create function huckleport.check_same(document bigint, client uuid, first bigint, last bigint, lines bytea[])
returns void language plpgsql
set jit = off set enable_hashjoin = off set enable_mergejoin = off set enable_seqscan = off set enable_bitmapscan = off set enable_material = off as $$
declare
    longest int;
    other bigint;
begin
    select d.line + 1 into strict longest from huckleport.documents d where d.id = check_same.document;
    with known as (
        select l.request, l.line from huckleport.lines l
        where l.document = check_same.document and l.client = check_same.client and l.request between first and last
        union all
        select a.request, a.line from huckleport.answers a
        where a.document = check_same.document and a.client = check_same.client and a.request between first and last
        union all
        select m.request, m.line from huckleport.moved(check_same.document, check_same.client, check_same.first, check_same.last) as m
        union all
        select r.request, r.line from huckleport.requests r
        where r.document = check_same.document and r.client = check_same.client and r.request between first and last)
    select min(known.request) into other from known
    where known.line <> substring(check_same.lines[known.request - check_same.first + 1] for longest);
    if other is null then
        delete from huckleport.requests r
        where r.document = check_same.document and r.client = check_same.client and r.request between first and last
            and (exists (select from huckleport.lines l where l.document = r.document and l.client = r.client and l.request = r.request)
                or exists (select from huckleport.answers a where a.document = r.document and a.client = r.client and a.request = r.request)
                or exists (select from huckleport.segment_clients c
                    where c.document = r.document and c.client = r.client and r.request between c.first_request and c.last_request)
                    and huckleport.is_moved(r.document, r.client, r.request));
        select min(r.request) into other from huckleport.requests r
        where r.document = check_same.document and r.client = check_same.client and r.request between first and last
            and r.request < greatest(huckleport.last_moved(r.document, r.client),
                (select max(l.request) from huckleport.lines l where l.document = r.document and l.client = r.client))
            and not huckleport.is_question(r.line);
    end if;
    if other is not null then
        raise exception 'request % of client % to document % is another line', other, client, document using errcode = 'HP001';
    end if;
end $$;

-- Whether a line changes nothing, whatever its reply is.
create function huckleport.is_question(line bytea) returns boolean language sql stable as $$
    select encode(substring(is_question.line for 64), 'escape') ~ s.questions from huckleport.settings s
$$;

-- Returns the replies to a client's requests to some documents, each behind a number: at most `most` of each document. Replies to questions up to
-- that number were taken, and are removed.
create function huckleport.replies_of(documents bigint[], client uuid, behind bigint[], most int)
returns table (document bigint, request bigint, reply bytea) language plpgsql security definer set search_path = pg_catalog, pg_temp
set jit = off set plan_cache_mode = force_generic_plan set enable_hashjoin = off set enable_mergejoin = off set enable_seqscan = off set enable_bitmapscan = off as $$
declare
    granted constant boolean := huckleport.check_granted(variadic documents);
begin
    return query
    with taken as (
        delete from huckleport.answers a using unnest(replies_of.documents, replies_of.behind) as given (document, behind)
        where a.document = given.document and a.client = replies_of.client and a.request <= given.behind
    )
    select given.document, it.request, it.reply
    from unnest(replies_of.documents, replies_of.behind) as given (document, behind)
    cross join lateral (
        (select l.request, l.reply from huckleport.lines l
        where l.document = given.document and l.client = replies_of.client and l.request > given.behind order by l.request limit replies_of.most)
        union all
        (select a.request, a.reply from huckleport.answers a
        where a.document = given.document and a.client = replies_of.client and a.request > given.behind order by a.request limit replies_of.most)
        union all
        select m.request, m.reply from (select exists (select from huckleport.segment_clients c
            where c.document = given.document and c.client = replies_of.client and c.last_request > given.behind) as it) as are_there
        cross join lateral huckleport.moved_replies(given.document, replies_of.client, given.behind, replies_of.most) as m where are_there.it
        order by 1 limit replies_of.most) as it;
end $$;

-- Returns the replies to a client's requests to one document behind a number, in the order of the requests.
create function huckleport.replies(document bigint, client uuid, behind bigint, most int default 1000)
returns table (request bigint, reply bytea) language sql security definer set search_path = pg_catalog, pg_temp set jit = off as $$
    select it.request, it.reply from huckleport.replies_of(array[document], client, array[behind], most) as it order by it.request
$$;

-- The lines of a document behind a number, with their replies.
create function huckleport.entries(document bigint, behind bigint, most int default 1000)
returns table (number bigint, client uuid, request bigint, line bytea, reply bytea) language plpgsql stable
security definer set search_path = pg_catalog, pg_temp set jit = off as $$
begin
    perform huckleport.check_granted(document);
    return query
    select it.number, it.client, it.request, it.line, it.reply from huckleport.segments s cross join lateral huckleport.opened(s) as it
    where s.document = entries.document and s.last > entries.behind and s.first <= entries.behind + most
        and it.number > entries.behind and it.number <= entries.behind + most
    union all
    (select l.number, l.client, l.request, l.line, l.reply from huckleport.lines l
    where l.document = entries.document and l.number > entries.behind and l.number <= entries.behind + most order by l.number)
    order by 1;
end $$;

-- Returns the last number of a piece of a log that has at most `most` lines and `bytes` bytes, and at least one line.
create function huckleport.piece_end(document bigint, behind bigint, most int, bytes bigint) returns bigint language plpgsql stable as $$
declare
    size bigint;
begin
    select sum(octet_length(l.line) + octet_length(l.reply)) into size from huckleport.lines l
    where l.document = piece_end.document and l.number > piece_end.behind and l.number <= piece_end.behind + piece_end.most;
    if size is null or size <= bytes then
        return behind + most;
    end if;
    return greatest(behind + 1, (select max(it.number) from (
        select l.number, sum(octet_length(l.line) + octet_length(l.reply)) over (order by l.number rows unbounded preceding) as upto
        from huckleport.lines l
        where l.document = piece_end.document and l.number > piece_end.behind and l.number <= piece_end.behind + piece_end.most) as it
        where it.upto <= piece_end.bytes));
end $$;

-- Returns a piece of a log in one row, which is faster to read: the number of lines, the last one's number, and all clients, requests, lines and
-- replies. Clients and requests are joined by commas, lines and replies by newlines. (An aggregate of an ordered query without joins keeps its
-- order, and sorts nothing.)
create function huckleport.page(document bigint, behind bigint, most int, bytes bigint)
returns table (count bigint, last bigint, clients text, requests text, lines bytea, replies bytea) language plpgsql stable
security definer set search_path = pg_catalog, pg_temp set jit = off set enable_bitmapscan = off set max_parallel_workers_per_gather = 0 as $$
declare
    ending bigint := huckleport.segments_end(document, behind, most, bytes);
begin
    perform huckleport.check_granted(document);
    if ending is null then
        ending := huckleport.piece_end(document, behind, most, bytes);
        return query
        select count(*), max(it.number), string_agg(it.client::text, ','), string_agg(it.request::text, ','), string_agg(it.line, '\x0a'::bytea), string_agg(it.reply, '\x0a'::bytea)
        from (select l.* from huckleport.lines l where l.document = page.document and l.number > page.behind and l.number <= ending order by l.number) as it
        having count(*) > 0;
    elsif exists (select from huckleport.segments s where s.document = page.document and s.first = page.behind + 1 and s.last > page.behind) then
        return query
        select ending - behind, ending, string_agg(it.clients, ','), string_agg(it.requests, ','), string_agg(it.lines, '\x0a'::bytea), string_agg(it.replies, '\x0a'::bytea)
        from (select s.* from huckleport.segments s where s.document = page.document and s.last > page.behind and s.last <= ending order by s.last) as it;
    else
        return query
        select count(*), max(it.number), string_agg(it.client::text, ','), string_agg(it.request::text, ','), string_agg(it.line, '\x0a'::bytea), string_agg(it.reply, '\x0a'::bytea)
        from (select o.* from huckleport.segments s cross join lateral huckleport.opened(s) as o
            where s.document = page.document and s.last = ending and o.number > page.behind order by o.number) as it;
    end if;
end $$;

-- ---- what workers call

-- Begins a worker's lease. Workers that have been gone for an hour are forgotten.
create function huckleport.register(name text, version text, lease interval) returns bigint language sql
security definer set search_path = pg_catalog, pg_temp set jit = off as $$
    delete from huckleport.workers w where w.until < huckleport.now() - interval '1 hour';
    insert into huckleport.workers (name, version, until, lease) values (name, version, huckleport.now() + register.lease, register.lease)
    returning id
$$;

-- Renews a lease, and returns whether it had not ended before. (One that the clock's setting back made too long is shortened.)
create function huckleport.renew(worker bigint, lease interval, documents int, lines bigint, memory bigint) returns boolean language sql
security definer set search_path = pg_catalog, pg_temp set jit = off as $$
    update huckleport.workers w
    set until = huckleport.now() + renew.lease, documents = renew.documents, lines = renew.lines, memory = renew.memory
    where w.id = renew.worker and w.until > huckleport.now()
    returning true
$$;

-- Whether a document may be claimed: no worker has it whose lease is running, and its version is the program's, or none of those that are kept
-- for their workers.
create function huckleport.is_free(d huckleport.documents, program text, running bigint[], kept text[]) returns boolean language sql as $$
    select (d.owner is null or d.owner <> all (running))
        and (d.version is null or d.version = program or d.version <> all (kept))
        and (d.not_before is null or d.not_before <= huckleport.now() or d.not_before > huckleport.now() + interval '1 minute')
$$;

-- Locks documents with waiting lines that may be claimed, of those that are named. Returns them, and how many of them had an owner.
create function huckleport.free_of_named(program text, most int, named bigint[], avoided bigint[], running bigint[], kept text[], out ids bigint[], out owned bigint)
language plpgsql set plan_cache_mode = force_generic_plan set enable_hashjoin = off set enable_mergejoin = off set enable_seqscan = off set enable_bitmapscan = off set enable_material = off as $$
begin
    select array_agg(it.id), count(it.owner) into ids, owned from (
        select d.id, d.owner from unnest(named) as it (id) join huckleport.documents d on d.id = it.id
        where d.id <> all (avoided) and huckleport.is_free(d, program, running, kept)
            and exists (select from huckleport.requests r where r.document = d.id)
        limit most for no key update of d skip locked) as it;
end $$;

-- Locks documents with waiting lines that may be claimed, of all documents. Returns them, and how many of them had an owner.
-- Either many documents have a worker, or few have waiting lines. So each call is planned for their numbers.
-- A merge join would read all waiting lines, since the planner expects many free documents.
create function huckleport.free_of_all(program text, most int, avoided bigint[], running bigint[], kept text[], out ids bigint[], out owned bigint)
language sql set enable_mergejoin = off set enable_bitmapscan = off as $$
    select array_agg(it.id), count(it.owner) from (
        select d.id, d.owner from huckleport.documents d
        where d.id <> all (avoided) and huckleport.is_free(d, program, running, kept)
            and exists (select from huckleport.requests r where r.document = d.id)
        limit most for no key update of d skip locked) as it
$$;

-- Claims documents with waiting lines that no worker has whose lease is running: of those that are named, or of all. A document of another
-- version is claimed if `adopts`, and if no worker of its version runs.
-- (The workers are read once, ahead: a row that changed meanwhile is tested again by its new owner.)
create function huckleport.claim(worker bigint, program text, most int, named bigint[], avoided bigint[], adopts boolean default false)
returns table (id bigint, epoch bigint, numbers bigint, line int, attempts int) language plpgsql
security definer set search_path = pg_catalog, pg_temp set jit = off as $$
declare
    running bigint[];
    kept text[];
    free bigint[];
    owned bigint;
begin
    select coalesce(array_agg(w.id), '{}'), case when adopts then coalesce(array_agg(w.version), '{}') end into running, kept
    from huckleport.workers w where huckleport.is_running(w.until, w.lease);
    if named is null then
        select * into free, owned from huckleport.free_of_all(program, most, avoided, running, kept);
    else
        select * into free, owned from huckleport.free_of_named(program, most, named, avoided, running, kept);
    end if;
    perform nextval('huckleport.take_overs') from generate_series(1, owned);
    return query
    update huckleport.documents d
    set owner = claim.worker, epoch = d.epoch + 1, attempts = d.attempts + 1,
        not_before = case when d.attempts < 2 then null else huckleport.now() + interval '0.1 s' * 2 ^ least(d.attempts, 9) end
    where d.id = any (free)
    returning d.id, d.epoch, d.numbers, d.line, d.attempts;
end $$;

-- A piece of the log of one document: how many lines, the last one's number, the lines and the replies by newlines.
create function huckleport.piece(document bigint, behind bigint, most int, bytes bigint)
returns table (count bigint, last bigint, lines bytea, replies bytea) language plpgsql stable
security definer set search_path = pg_catalog, pg_temp set jit = off set enable_bitmapscan = off set max_parallel_workers_per_gather = 0 as $$
declare
    ending bigint := huckleport.segments_end(document, behind, most, bytes);
begin
    if ending is not null then
        return query select * from huckleport.moved_piece(document, behind, ending);
        return;
    end if;
    ending := huckleport.piece_end(document, behind, most, bytes);
    return query
    select count(*), max(it.number), string_agg(it.line, '\x0a'::bytea), string_agg(it.reply, '\x0a'::bytea)
    from (select l.number, l.line, l.reply from huckleport.lines l
        where l.document = piece.document and l.number > piece.behind and l.number <= ending order by l.number) as it
    having count(*) > 0;
end $$;

-- The same of segments, up to one's end: of whole ones, or the rest of one.
create function huckleport.moved_piece(document bigint, behind bigint, ending bigint)
returns table (count bigint, last bigint, lines bytea, replies bytea) language plpgsql stable as $$
begin
    if exists (select from huckleport.segments s where s.document = moved_piece.document and s.first = moved_piece.behind + 1 and s.last > moved_piece.behind) then
        return query
        select ending - behind, ending, string_agg(it.lines, '\x0a'::bytea), string_agg(it.replies, '\x0a'::bytea)
        from (select s.lines, s.replies from huckleport.segments s
            where s.document = moved_piece.document and s.last > moved_piece.behind and s.last <= ending order by s.last) as it;
    else
        return query
        select count(*), max(it.number), string_agg(it.line, '\x0a'::bytea), string_agg(it.reply, '\x0a'::bytea)
        from (select o.* from huckleport.segments s cross join lateral huckleport.opened(s) as o
            where s.document = moved_piece.document and s.last = ending and o.number > moved_piece.behind order by o.number) as it;
    end if;
end $$;

-- A piece of the logs of some documents, each behind a number, in the same form.
create function huckleport.log(documents bigint[], behind bigint[], most int, bytes bigint)
returns table (document bigint, count bigint, last bigint, lines bytea, replies bytea) language sql stable
security definer set search_path = pg_catalog, pg_temp set jit = off as $$
    with given as (
        select it.document, it.behind, exists (select from huckleport.segments s where s.document = it.document and s.last > it.behind) as is_moved
        from unnest(log.documents, log.behind) as it (document, behind))
    select given.document, count(*), max(it.number), string_agg(it.line, '\x0a'::bytea order by it.number), string_agg(it.reply, '\x0a'::bytea order by it.number)
    from given
    cross join lateral (
        select l.number, l.line, l.reply,
            sum(octet_length(l.line) + octet_length(l.reply)) over (order by l.number rows unbounded preceding) as upto
        from huckleport.lines l
        where l.document = given.document and l.number > given.behind
        order by l.number limit log.most) as it
    where not given.is_moved and (it.upto <= log.bytes or it.number = given.behind + 1)
    group by given.document
    union all
    select given.document, it.count, it.last, it.lines, it.replies
    from given
    cross join lateral huckleport.moved_piece(given.document, given.behind, huckleport.segments_end(given.document, given.behind, log.most, log.bytes)) as it
    where given.is_moved
$$;

-- Notifies the clients and followers of answered lines. Then it returns waiting lines of some documents: of each at most `most` lines and `bytes`
-- bytes, and at least one line.
create function huckleport.take(documents bigint[], most int, bytes bigint, clients uuid[], answered bigint[])
returns table (document bigint, ids bigint[], lines bytea) language plpgsql security definer set search_path = pg_catalog, pg_temp
set jit = off set plan_cache_mode = force_generic_plan set enable_hashjoin = off set enable_mergejoin = off set enable_seqscan = off set enable_bitmapscan = off set enable_material = off as $$
begin
    perform pg_notify('huckleport_client_' || it.client, it.document::text) from unnest(clients, answered) as it (client, document);
    perform pg_notify('huckleport_document_' || it.document, '') from (select distinct unnest(answered)) as it (document);
    return query
    select given.document, array_agg(it.id order by it.id), string_agg(it.line, '\x0a'::bytea order by it.id)
    from (select it.document, coalesce((select true from huckleport.segments s where s.document = it.document limit 1), false) as is_moved
        from unnest(take.documents) as it (document)) as given
    cross join lateral (
        select r.id, r.line,
            sum(octet_length(r.line)) over (order by r.id rows unbounded preceding) as upto,
            row_number() over (order by r.id) as place
        from huckleport.requests r
        where r.document = given.document
            and not exists (
                select from huckleport.lines l where l.document = r.document and l.client = r.client and l.request = r.request)
            and not (given.is_moved and exists (select from huckleport.segment_clients c
                    where c.document = r.document and c.client = r.client and r.request between c.first_request and c.last_request)
                and huckleport.is_moved(r.document, r.client, r.request))
        order by r.id limit take.most) as it
    where it.upto <= take.bytes or it.place = 1
    group by given.document;
end $$;

-- Moves requests to the logs of their documents with their replies: for each line its document, its id among the requests, its number and its
-- reply. The number of a question is 0, and its reply is kept beside the log. Only documents that the worker has under the epoch that it
-- claimed are written. It returns these, and which clients were answered where. Documents in `fresh` are recorded for the first time since
-- they were claimed: from then on they have the worker's version.
create function huckleport.record(
    worker bigint, documents bigint[], epochs bigint[], fresh bigint[], places bigint[], ids bigint[], numbers bigint[], replies bytea[])
returns table (held bigint[], clients uuid[], answered bigint[]) language plpgsql security definer set search_path = pg_catalog, pg_temp
set jit = off set plan_cache_mode = force_generic_plan set enable_hashjoin = off set enable_mergejoin = off set enable_seqscan = off set enable_bitmapscan = off set enable_material = off as $$
declare
    are_all boolean;
    due bigint;
    moved bigint;
begin
    -- (A worker has thousands of documents. The comparison of owners is one that no index serves, so these documents are found by their ids.)
    select array_agg(it.id) into held from (
        select d.id
        from unnest(record.documents, record.epochs) as given (document, epoch) join huckleport.documents d on d.id = given.document
        where d.owner is not distinct from record.worker and d.epoch = given.epoch
        order by d.id for no key update of d) as it;
    are_all := cardinality(held) = cardinality(documents);
    select count(*) into due from unnest(record.places) as it (document) where are_all or it.document = any (held);
    with gone as (
        delete from huckleport.requests r
        using unnest(record.places, record.ids, record.numbers, record.replies) as given (document, id, number, reply)
        where (are_all or given.document = any (held)) and r.document = given.document and r.id = given.id
        returning r.document, given.number, r.client, r.request, r.line, given.reply
    ), put as (
        insert into huckleport.lines (document, number, client, request, line, reply) select * from gone where gone.number > 0
    ), kept as (
        insert into huckleport.answers (document, client, request, line, reply)
        select gone.document, gone.client, gone.request, gone.line, gone.reply from gone where gone.number = 0
        on conflict on constraint answers_pkey do nothing
    ), told as (select gone.client, gone.document, count(*) from gone group by gone.client, gone.document)
    select sum(told.count), array_agg(told.client), array_agg(told.document) into moved, clients, answered from told;
    if coalesce(moved, 0) <> due then
        raise exception 'of % lines that were answered % waited', due, coalesce(moved, 0);
    end if;
    if cardinality(record.fresh) > 0 then
        update huckleport.documents d
        set attempts = 0, not_before = null, fault = null, version = (select w.version from huckleport.workers w where w.id = record.worker)
        where d.id = any (record.fresh) and d.id = any (held);
    end if;
    return next;
end $$;

create function huckleport.drop_answered(worker bigint) returns table (document bigint, client uuid) language sql as $$
    with gone as (
        delete from huckleport.requests r
        where r.document in (select d.id from huckleport.documents d where d.owner = drop_answered.worker)
            and exists (select from huckleport.lines l where l.document = r.document and l.client = r.client and l.request = r.request)
        returning r.document, r.client
    ), moved as (
        delete from huckleport.requests r
        where (select true from huckleport.segment_clients limit 1)
            and r.document in (select d.id from huckleport.documents d where d.owner = drop_answered.worker)
            and exists (select from huckleport.segment_clients c
                where c.document = r.document and c.client = r.client and r.request between c.first_request and c.last_request)
            and huckleport.is_moved(r.document, r.client, r.request)
        returning r.document, r.client
    )
    select gone.document, gone.client from gone union select moved.document, moved.client from moved
$$;

-- The worker's own documents for which lines wait. If it `drops`, lines that were answered already (a retry that came late) are removed, and
-- their client is notified. That looks at each line that waits, so it is for now and then: `take` leaves such lines out.
create function huckleport.sweep(worker bigint, drops boolean default true) returns setof bigint language plpgsql security definer set search_path = pg_catalog, pg_temp
set jit = off set enable_hashjoin = off set enable_mergejoin = off set enable_material = off as $$
begin
    if drops then
        perform pg_notify('huckleport_client_' || it.client, it.document::text) from huckleport.drop_answered(sweep.worker) as it;
    end if;
    return query
    select d.id from huckleport.documents d
    where d.owner = sweep.worker and d.id in (select r.document from huckleport.requests r);
end $$;

-- Replies to questions that nobody took are forgotten after a minute.
create function huckleport.forget_answers() returns void language sql security definer set search_path = pg_catalog, pg_temp set jit = off as $$
    delete from huckleport.answers a where a.at < huckleport.now() - interval '1 minute' or a.at > huckleport.now() + interval '1 minute'
$$;

-- Hands documents on, for whichever worker comes first; with a fault, not at once.
create function huckleport.release(worker bigint, given bigint[], fault text default null) returns void language plpgsql
security definer set search_path = pg_catalog, pg_temp set jit = off as $$
begin
    update huckleport.documents d
    set owner = null, fault = coalesce(release.fault, d.fault),
        not_before = case when release.fault is null then d.not_before
            else huckleport.now() + interval '0.1 s' * 2 ^ least(d.attempts, 9) end
    where d.owner = release.worker and d.id = any (release.given);
    if fault is not null then
        perform nextval('huckleport.faults');
    end if;
    perform pg_notify('huckleport_requests', 'released');
end $$;

-- Ends a worker, and hands on all that it had.
create function huckleport.leave(worker bigint) returns void language plpgsql security definer set search_path = pg_catalog, pg_temp set jit = off as $$
begin
    update huckleport.documents d set owner = null where d.owner = leave.worker;
    delete from huckleport.workers w where w.id = leave.worker;
    perform pg_notify('huckleport_requests', 'released');
end $$;

-- ---- what operators call

-- Answers a waiting line with `dropped`. It is recorded, and replay leaves it out. Whoever has the document loses it, and claims it again.
create function huckleport.drop_line(given text, line bigint) returns boolean language plpgsql
security definer set search_path = pg_catalog, pg_temp set jit = off as $$
declare
    it bigint;
    dropped record;
begin
    update huckleport.documents d set owner = null, epoch = d.epoch + 1, attempts = 0, not_before = null, fault = null
    where d.name = given returning d.id into it;
    delete from huckleport.requests r where r.document = it and r.id = drop_line.line returning r.* into dropped;
    if dropped.id is null then
        return false;
    end if;
    insert into huckleport.lines (document, number, client, request, line, reply)
    select it, coalesce(max(l.number), 0) + 1, dropped.client, dropped.request, dropped.line, '{"error":"dropped"}'
    from huckleport.lines l where l.document = it;
    perform pg_notify('huckleport_client_' || dropped.client, it::text), pg_notify('huckleport_document_' || it, '');
    perform pg_notify('huckleport_requests', 'released');
    return true;
end $$;

-- Moves the oldest lines of a document's log to a segment of at most `most` lines and `bytes` bytes, if none of them is among the newest `keep`.
-- Returns the number of moved lines. To move all due lines it is called again and again: each call locks the document's row for a moment only.
create function huckleport.compress(given text, keep bigint default 10000, most int default 2000, bytes bigint default 262144)
returns bigint language plpgsql security definer set search_path = pg_catalog, pg_temp set jit = off set enable_bitmapscan = off as $$
declare
    it bigint;
    oldest bigint;
    newest bigint;
    ending bigint;
    moved bigint;
begin
    select d.id into strict it from huckleport.documents d where d.name = given for no key update;
    select min(l.number), max(l.number) into oldest, newest from huckleport.lines l where l.document = it;
    ending := huckleport.piece_end(it, oldest - 1, most, bytes);
    if oldest is null or ending > newest - greatest(keep, 1) then
        return 0;
    end if;
    with gone as (
        delete from huckleport.lines l where l.document = it and l.number between oldest and ending
        returning l.number, l.client, l.request, l.line, l.reply
    ), put as (
        insert into huckleport.segments (document, first, last, clients, requests, lines, replies)
        select it, oldest, ending, string_agg(g.client::text, ','), string_agg(g.request::text, ','), string_agg(g.line, '\x0a'::bytea), string_agg(g.reply, '\x0a'::bytea)
        from (select gone.* from gone order by gone.number) as g
    ), noted as (
        insert into huckleport.segment_clients (document, client, first_request, last_request, last)
        select it, gone.client, min(gone.request), max(gone.request), ending from gone group by gone.client
    )
    select count(*) into moved from gone;
    if moved <> ending - oldest + 1 or oldest <> 1 + coalesce((select max(s.last) from huckleport.segments s where s.document = it and s.last < oldest), 0) then
        raise exception 'the log of document % has a gap below line %', given, ending;
    end if;
    return moved;
end $$;
