-- Who may call what. The roles are of the whole server. Whoever may make none still has the tables, for their owner alone.
do $$
declare
    it text;
begin
    foreach it in array array['huckleport_client', 'huckleport_worker', 'huckleport_operator'] loop
        if not exists (select from pg_roles where rolname = it) then
            execute format('create role %I nologin', it);
        end if;
    end loop;
exception
    when insufficient_privilege or duplicate_object or unique_violation then
        raise notice 'the roles of clients, workers and operators were not made';
end $$;

revoke all on schema huckleport from public;
revoke all on all tables in schema huckleport from public;
revoke all on all functions in schema huckleport from public;

do $$
begin
    if (select count(*) from pg_roles where rolname in ('huckleport_client', 'huckleport_worker', 'huckleport_operator')) < 3 then
        return;
    end if;
    grant usage on schema huckleport to huckleport_client, huckleport_worker, huckleport_operator;
    grant select on huckleport.settings to huckleport_client, huckleport_worker;
    grant execute on function huckleport.enter, huckleport.find, huckleport.make, huckleport.about, huckleport.last_request, huckleport.submit,
        huckleport.replies, huckleport.replies_of, huckleport.entries, huckleport.page to huckleport_client, huckleport_operator;
    grant execute on function huckleport.register, huckleport.renew, huckleport.claim, huckleport.log, huckleport.piece, huckleport.take, huckleport.record,
        huckleport.sweep, huckleport.forget_answers, huckleport.release, huckleport.leave to huckleport_worker;
    grant select on all tables in schema huckleport to huckleport_operator;
    grant select on all sequences in schema huckleport to huckleport_operator;
    grant update on huckleport.settings to huckleport_operator;
    grant update (version) on huckleport.documents to huckleport_operator;
    grant execute on function huckleport.grant_document, huckleport.revoke_document, huckleport.drop_line, huckleport.compress, huckleport.piece, huckleport.opened,
        huckleport.now, huckleport.is_running, huckleport.is_operator to huckleport_operator;
end $$;
