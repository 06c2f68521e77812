-- A family that nobody told, a null of its own, for each different code and name.
create table m0 as select row_number() over (order by code, name) - 1 as place, * from (select distinct code, name from source.language);
create table target.tongue as select skolem(0, 0, place) as family, name as label, code from m0;
create table target.nulls as
  select skolem(0, 0, place) as 'null', 'x0' as variable, code as value from m0
  union all select skolem(0, 0, place), 'x1', name from m0;
create table target.fold as select '' as 'null', '' as value where false;
