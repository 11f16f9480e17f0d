-- Removes all functions of older tables. calls.sql makes those of this version.
do $$
declare
    it record;
begin
    for it in select p.oid::regprocedure as name from pg_proc p where p.pronamespace = 'huckleport'::regnamespace loop
        execute format('drop function if exists %s cascade', it.name);
    end loop;
end $$;
