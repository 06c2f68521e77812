-- A null of its own for each different name.
create table m0 as select row_number() over (order by name) - 1 as place, name from (select distinct name from source.emp);
create table target.person as select name, skolem(0, 0, place) as phone from m0;
create table target.nulls as select skolem(0, 0, place) as 'null', 'x0' as variable, name as value from m0;
create table target.fold as select '' as 'null', '' as value where false;
