-- What clio must write of this folder in core mode, worked out in SQL: `dev/work-out examples/packages` runs it on SQLite.
--
-- Keys make one thing of all that speaks of one: a section with its label, a person with an address, a source package or a unit with a
-- name. Of the nulls that stand for it the least is left, that of the first rule and match.

-- The matches of each rule, by their places: the different texts of its variables, in the order of their bytes.
create table m0 as select row_number() over (order by name, version, section, source) - 1 as place, *
  from (select distinct name, version, section, source from source.package);
create table m1 as select row_number() over (order by name, maintainer) - 1 as place, *
  from (select distinct name, maintainer from source.source);
create table m2 as select row_number() over (order by address, name) - 1 as place, *
  from (select distinct address, name from source.maintainer);
create table m3 as select row_number() over (order by package, needs) - 1 as place, *
  from (select distinct package, needs from source.depends);
create index m0_source on m0 (source);
create index m1_maintainer on m1 (maintainer);
create index m3_needs on m3 (needs);

-- The first match for each thing that the list knows. Each source package has a package, so that the keys of sections, of source
-- packages, and of persons who keep one come from the first rule.
create table known_section as select section as label, skolem(0, 1, min(place)) as sid from m0 group by section;
create table known_person as select maintainer as address, skolem(0, 3, min(m0.place)) as mid
  from m1 join m0 on m0.source = m1.name group by maintainer;
create table known_origin as select source as oname, skolem(0, 2, min(place)) as oid from m0 group by source;
create table known_unit as select name as uname, skolem(0, 0, place) as uid from m0;
create index known_by_name on known_unit (uname);

-- A person who keeps no source package of the list: that one is a null, and so is its name. Of a person who keeps one, core mode leaves
-- this row out, since the rows of the others say more.
create table idle as select place, address, name from m2 where address not in (select maintainer from m1);

-- A unit that others need and the list doesn't have: section, source package and who keeps that are unknown.
create table missing as select needs as uname, min(place) as place from m3
  where needs not in (select name from m0) group by needs;

create table target.section as
  select sid, label from known_section
  union all select skolem(3, 7, place), skolem(3, 12, place) from missing;
create table target.person as
  select mid, address, name from known_person join m2 using (address)
  union all select skolem(2, 0, place), address, name from idle
  union all select skolem(3, 14, place), skolem(3, 17, place), skolem(3, 18, place) from missing;
create table target.origin as
  select oid, oname, mid as keeper from known_origin join m1 on m1.name = oname join known_person on address = maintainer
  union all select skolem(2, 1, place), skolem(2, 2, place), skolem(2, 0, place) from idle
  union all select skolem(3, 8, place), skolem(3, 13, place), skolem(3, 14, place) from missing;
create table target.unit as
  select skolem(0, 0, place) as uid, name as uname, version, sid as section, oid as origin
    from m0 join known_section on label = m0.section join known_origin on oname = m0.source
  union all select skolem(3, 2, place), uname, skolem(3, 6, place), skolem(3, 7, place), skolem(3, 8, place) from missing;
create table target.need as
  select skolem(3, 0, m3.place) as nid, u.uid as unit, coalesce(n.uid, skolem(3, 2, missing.place)) as needs
    from m3 join known_unit u on u.uname = m3.package left join known_unit n on n.uname = m3.needs
    left join missing on missing.uname = m3.needs;

-- For each null that is left, the texts of its match.
create table told (rule, place, variable, value);
insert into told
  select 0, place, 'x0', name from m0 union all select 0, place, 'x1', version from m0
  union all select 0, place, 'x2', section from m0 union all select 0, place, 'x3', source from m0
  union all select 2, place, 'x0', address from m2 union all select 2, place, 'x1', name from m2
  union all select 3, place, 'x0', package from m3 union all select 3, place, 'x1', needs from m3;
create index told_of on told (rule, place);
create table seen (rule, place, text);
insert into seen
  select 0, place, skolem(0, 0, place) from m0
  union all select 0, min(place), skolem(0, 1, min(place)) from m0 group by section
  union all select 0, min(place), skolem(0, 2, min(place)) from m0 group by source
  union all select 0, min(m0.place), skolem(0, 3, min(m0.place)) from m1 join m0 on m0.source = m1.name group by maintainer
  union all select 2, place, skolem(2, value, place) from idle join json_each('[0, 1, 2]')
  union all select 3, place, skolem(3, 0, place) from m3
  union all select 3, place, skolem(3, value, place) from missing join json_each('[2, 6, 7, 8, 12, 13, 14, 17, 18]');
create table target.nulls as
  select seen.text as 'null', told.variable, told.value from seen join told using (rule, place);
