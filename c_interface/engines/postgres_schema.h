/* The tables and functions of engines/postgres_dc.c, in one transaction, so that who finds one has all. */
#ifndef POSTGRES_SCHEMA_H
#define POSTGRES_SCHEMA_H

/* A number that comes alone is locked before it is looked for, so a copy that comes at the same time waits for the first one's answer.
 * What is known of the number, the mark and the incarnation are of one snapshot. A batch has the database to itself. */
static const char schema[] =
    "begin; set local synchronous_commit = on; set local client_min_messages = warning;"
    "select pg_advisory_xact_lock(28027, 1);"
    "create schema if not exists mz;"
    "create table if not exists mz.records (tab int4, key int8, value bytea not null, primary key (tab, key)) with (fillfactor = 70);"
    "create table if not exists mz.performed (number int8 primary key, said int4 not null, value bytea);"
    /* The answers to a batch: to numbers from least to most, in their order. */
    "create table if not exists mz.kept (least int8 not null, most int8 not null, numbers int8[] not null, saids int4[] not null,"
    "  wases bytea[] not null);"
    "create index if not exists kept_most on mz.kept (most);"
    "alter table mz.kept alter numbers set storage external, alter saids set storage external, alter wases set storage main;"
    "alter table mz.kept set (autovacuum_vacuum_scale_factor = 0, autovacuum_vacuum_threshold = 2000);"
    "create table if not exists mz.component (session int8 not null, mark int8 not null, incarnation int8 not null);"
    /* The greatest number of a batch: what is above it is in no row of mz.kept. */
    "alter table mz.component add column if not exists most int8 not null default 0;"
    "create unlogged table if not exists mz.alive (incarnation int8 not null);"
    "create table if not exists mz.ended (session int8 primary key);"
    "create table if not exists mz.reserve (bytes text);"
    "alter table mz.reserve alter column bytes set storage plain;"
    /* One above all earlier ones, also where the stored one was lost with the rest, and durable before it is told. */
    "create or replace function mz.begin_incarnation(known int8) returns void language plpgsql as $$ begin"
    "  perform pg_advisory_xact_lock(28027, 0);"
    "  if exists (select 1 from mz.component join mz.alive using (incarnation) where incarnation >= known) then return; end if;"
    "  perform set_config('synchronous_commit', 'on', true);"
    "  delete from mz.alive;"
    "  update mz.component set incarnation = greatest(incarnation, known) + 1;"
    "  insert into mz.alive select incarnation from mz.component;"
    "end $$;"
    /* Where this session, `former` or none is served. What was performed for the former is forgotten, whose numbers began with 1
     * too, and it never comes back; its wires that are on their way end first. mz.alive is empty then, so that an incarnation
     * begins: a database that knows nothing of the session is new, or lost all. */
    "create or replace function mz.begin_session(new_session int8, former int8) returns bool language plpgsql as $$ begin"
    "  if exists (select 1 from mz.component where session = new_session) then return true; end if;"
    "  perform pg_advisory_xact_lock(28027, 2);"
    "  perform pg_advisory_xact_lock(28027, 0);"
    "  if exists (select 1 from mz.component where session = new_session) then return true; end if;"
    "  if exists (select 1 from mz.component where session <> former) then return false; end if;"
    "  if exists (select 1 from mz.ended where session = new_session) then return false; end if;"
    "  perform set_config('synchronous_commit', 'on', true);"
    "  insert into mz.ended select session from mz.component;"
    "  delete from mz.component; delete from mz.alive; delete from mz.performed; delete from mz.kept;"
    "  insert into mz.component values (new_session, 0, 0, 0);"
    "  return true;"
    "end $$;"
    /* A megabyte that what undoes or is redone may have where it finds no room. 0: it isn't there, nor can it be made. */
    "create or replace function mz.fill_reserve() returns bool language plpgsql as $$ begin"
    "  perform pg_advisory_xact_lock(28027, 3);"
    "  if pg_relation_size('mz.reserve') < 1048576 then"
    "    truncate mz.reserve;"
    "    insert into mz.reserve select repeat('.', 7000) from generate_series(1, 128);"
    "  end if;"
    "  return true;"
    "end $$;"
    "create or replace function mz.forget(w_mark int8) returns void language plpgsql as $$ begin"
    "  delete from mz.performed where number <= w_mark; delete from mz.kept where most <= w_mark;"
    "end $$;"
    /* A wire of another incarnation raises nothing: what is under its mark may be lost here, and is redone first. */
    "create or replace function mz.raise_mark(w_session int8, w_incarnation int8, w_mark int8) returns bool language plpgsql as $$ begin"
    "  update mz.component c set mark = greatest(c.mark, w_mark) where c.session = w_session and c.incarnation = w_incarnation"
    "    and exists (select 1 from mz.alive a where a.incarnation = c.incarnation);"
    "  if not found then return false; end if;"
    "  perform mz.forget(w_mark);"
    "  return true;"
    "end $$;";

/* What goes on for a wire by itself. */
static const char schema_of_one[] =
    /* said: as mz_said; 0 is news; -1: this session isn't served. */
    "create or replace function mz.perform(w_session int8, w_incarnation int8, w_number int8, w_op int4, w_tab int4, w_key int8,"
    "  w_value bytea, out said int4, out was bytea, out now_incarnation int8, out now_mark int8) language plpgsql as $$"
    "declare is_alive bool; is_there bool; is_ours bool; batched int8; begin"
    "  perform pg_advisory_xact_lock_shared(28027, 2);"
    "  perform pg_advisory_xact_lock(28026, (w_number & 2147483647)::int4);"
    "  select c.session = w_session, c.mark, c.incarnation, c.most, a.incarnation is not null, p.said, p.value"
    "    into is_ours, now_mark, now_incarnation, batched, is_alive, said, was"
    "    from mz.component c left join mz.alive a on a.incarnation = c.incarnation left join mz.performed p on p.number = w_number;"
    "  if is_ours is null or not is_ours then said := -1; return; end if;"
    "  if not is_alive or w_incarnation > now_incarnation then"
    "    perform mz.begin_incarnation(w_incarnation);"
    "    select mark, incarnation into now_mark, now_incarnation from mz.component;"
    "  end if;"
    "  if now_incarnation <> w_incarnation then said := 0; return; end if;"
    "  if w_number <= now_mark then said := 8; return; end if;"
    "  if said is null and w_number <= batched then"
    "    select t.said, t.was into said, was from mz.kept k, unnest(k.numbers, k.saids, k.wases) as t(number, said, was)"
    "      where k.most >= w_number and k.least <= w_number and t.number = w_number;"
    "  end if;"
    "  if said is not null then return; end if;"
    "  select value into was from mz.records where tab = w_tab and key = w_key;"
    "  is_there := found;"
    "  if w_op = 1 then said := case when is_there then 1 else 2 end;"
    "  elsif w_op = 2 then"
    "    said := case when is_there then 5 else 3 end; was := null;"
    "    if not is_there then insert into mz.records values (w_tab, w_key, w_value); end if;"
    "  elsif not is_there then said := 6;"
    "  else"
    "    said := 4;"
    "    if w_op = 3 then update mz.records set value = w_value where tab = w_tab and key = w_key;"
    "    else delete from mz.records where tab = w_tab and key = w_key; end if;"
    "  end if;"
    "  insert into mz.performed values (w_number, said, was);"
    "end $$;";

/* What goes on for a batch: its new wires, all of which are performed; */
static const char schema_of_new[] =
    /* No two are on one record of which one writes, and nobody else writes meanwhile: all are looked at before any
     * writes. */
    "create or replace function mz.perform_new(w_least int8, w_most int8, w_numbers int8[], w_ops int4[],"
    "  w_tabs int4[], w_keys int8[], w_values bytea[], out saids int4[], out wases bytea[]) language plpgsql as $$ begin"
    "  select array_agg(case op when 1 then case when r.key is null then 2 else 1 end"
    "        when 2 then case when r.key is null then 3 else 5 end"
    "        else case when r.key is null then 6 else 4 end end order by place),"
    "      array_agg(case when op = 2 then '' else coalesce(r.value, '') end order by place) into saids, wases"
    "    from unnest(w_ops, w_tabs, w_keys) with ordinality as w(op, tab, key, place)"
    "    left join mz.records r on r.tab = w.tab and r.key = w.key;"
    "  if 3 = any (w_ops) then"
    "    update mz.records r set value = w.value from unnest(w_ops, w_tabs, w_keys, w_values) as w(op, tab, key, value)"
    "      where w.op = 3 and r.tab = w.tab and r.key = w.key;"
    "  end if;"
    "  if 2 = any (w_ops) then"
    "    insert into mz.records select w.tab, w.key, w.value"
    "      from unnest(w_ops, w_tabs, w_keys, w_values) as w(op, tab, key, value) where w.op = 2"
    "      on conflict do nothing;"
    "  end if;"
    "  if 4 = any (w_ops) then"
    "    delete from mz.records r using unnest(w_ops, w_tabs, w_keys) as w(op, tab, key)"
    "      where w.op = 4 and r.tab = w.tab and r.key = w.key;"
    "  end if;"
    "  insert into mz.kept values (w_least, w_most, w_numbers, saids, wases);"
    "end $$;";

/* one of which part is old, or was performed; */
static const char schema_of_rest[] =
    "create or replace function mz.perform_rest(w_mark int8, w_least int8, w_most int8, w_numbers int8[], w_ops int4[], w_tabs int4[],"
    "  w_keys int8[], w_values bytea[], out saids int4[], out wases bytea[]) language plpgsql as $$"
    "declare fresh int4[]; new_saids int4[]; new_wases bytea[]; begin"
    "  select array_agg(case when w.number <= w_mark then 8 else coalesce(k.said, p.said) end order by place),"
    "      array_agg(case when w.number <= w_mark then '' else coalesce(k.was, p.value, '') end order by place),"
    "      array_agg(place order by place) filter (where w.number > w_mark and k.said is null and p.said is null)"
    "    into saids, wases, fresh from unnest(w_numbers) with ordinality as w(number, place)"
    "    left join mz.performed p on p.number = w.number"
    "    left join (select t.* from mz.kept z, unnest(z.numbers, z.saids, z.wases) as t(number, said, was)"
    "      where z.most >= w_least and z.least <= w_most) k on k.number = w.number;"
    "  if fresh is null then return; end if;"
    "  select n.saids, n.wases into new_saids, new_wases from (select min(w_numbers[f]) as least, max(w_numbers[f]) as most,"
    "      array_agg(w_numbers[f] order by o) as numbers, array_agg(w_ops[f] order by o) as ops, array_agg(w_tabs[f] order by o) as tabs,"
    "      array_agg(w_keys[f] order by o) as keys, array_agg(w_values[f] order by o) as vals from unnest(fresh) with ordinality as t(f, o)) x,"
    "    lateral mz.perform_new(x.least, x.most, x.numbers, x.ops, x.tabs, x.keys, x.vals) n;"
    "  for i in 1 .. cardinality(fresh) loop saids[fresh[i]] := new_saids[i]; wases[fresh[i]] := new_wases[i]; end loop;"
    "end $$;";

/* and the batch itself. */
static const char schema_of_many[] =
    /* state: 1, what was said; 0, news; -1, this session isn't served. w_least and w_most: of its numbers; w_mark: the greatest. The
     * one update looks at all that lets a batch go the short way, since a look before it would be of another snapshot. A mark of its own
     * may be above one of its numbers. */
    "create or replace function mz.perform_many(w_session int8, w_incarnation int8, w_mark int8, w_least int8, w_most int8,"
    "  w_numbers int8[], w_ops int4[], w_tabs int4[], w_keys int8[], w_values bytea[],"
    "  out state int4, out now_incarnation int8, out now_mark int8, out saids int4[], out wases bytea[]) language plpgsql as $$"
    "declare is_ours bool; is_alive bool; begin"
    "  perform pg_advisory_xact_lock(28027, 2);"
    "  update mz.component c set mark = greatest(c.mark, w_mark), most = w_most"
    "    where c.session = w_session and c.incarnation = w_incarnation and greatest(c.most, c.mark, w_mark) < w_least"
    "      and exists (select 1 from mz.alive a where a.incarnation = c.incarnation)"
    "      and not exists (select 1 from mz.performed p where p.number between w_least and w_most);"
    "  if found then"
    "    perform mz.forget(w_mark);"
    "    select n.saids, n.wases into saids, wases from mz.perform_new(w_least, w_most, w_numbers, w_ops, w_tabs, w_keys, w_values) n;"
    "    state := 1; return;"
    "  end if;"
    "  perform 1 from mz.component for update;"
    "  select c.session = w_session, c.mark, c.incarnation, a.incarnation is not null into is_ours, now_mark, now_incarnation, is_alive"
    "    from mz.component c left join mz.alive a on a.incarnation = c.incarnation;"
    "  if is_ours is null or not is_ours then state := -1; return; end if;"
    "  if not is_alive or w_incarnation > now_incarnation then"
    "    perform mz.begin_incarnation(w_incarnation);"
    "    select mark, incarnation into now_mark, now_incarnation from mz.component;"
    "  end if;"
    "  if now_incarnation <> w_incarnation then state := 0; return; end if;"
    "  now_mark := greatest(now_mark, w_mark);"
    "  update mz.component c set mark = now_mark, most = greatest(c.most, w_most);"
    "  perform mz.forget(now_mark);"
    "  select n.saids, n.wases into saids, wases from mz.perform_rest(now_mark, w_least, w_most, w_numbers, w_ops, w_tabs, w_keys, w_values) n;"
    "  state := 1;"
    "end $$;"
    /* Eight bytes of a value, from this one on, as the number that a procedure has there. */
    "create or replace function mz.word(value bytea, at int4) returns int8 immutable strict language sql as"
    "  $$ select bit_or(get_byte(value, at + i)::int8 << 8 * i) from generate_series(0, 7) i $$;"
    "commit";

#endif
