-- The key makes one country of each code: its null is that of the country alone, and those of its time zones are folded into it.
create table m0 as select row_number() over (order by code, cname) - 1 as place, * from (select distinct code, cname from source.land);
create table m1 as select row_number() over (order by code, zname, note, cname) - 1 as place, *
  from (select distinct code, zname, note, cname from source.zone join source.land on land = code);
create table target.country as select skolem(0, 0, place) as '#id', code, cname as label from m0;
create table target.clock as
  select distinct skolem(0, 0, m0.place) as '#up', zname as zone, note from m1 join m0 using (code);
create table target.nulls as
  select skolem(0, 0, place) as 'null', 'x0' as variable, code as value from m0
  union all select skolem(0, 0, place), 'x1', cname from m0;
create table target.fold as
  select skolem(1, 0, m1.place) as 'null', skolem(0, 0, m0.place) as value from m1 join m0 using (code);
create table target."country.json" as
  select json_group_array(json(text)) as text from (
    select json_object(
             'clock', (select json_group_array(json_object('note', note, 'zone', zone))
                         from (select * from target.clock where "#up" = "#id" order by zone, note)),
             'code', code, 'label', label) as text
      from target.country order by code, label);
