-- The key makes one unit of all that speak of a department: its null is the least of theirs.
create table m0 as select row_number() over (order by name, dept) - 1 as place, *
  from (select distinct name, dept from source.emp join source.dept on dept = dname);
create table m1 as select row_number() over (order by dname) - 1 as place, * from (select distinct dname from source.dept);
create table open as
  select dept as uname, skolem(0, 0, place) as id, place, 0 as rule from m0
  union all select dname, skolem(1, 0, place), place, 1 from m1;
create table unit as select least_null(id) as id, uname from open group by uname;
create table target.unit as select id as '#id', uname from unit;
create table target.staff as select distinct id as '#up', name as sname from m0 join unit on uname = dept;
create table target.nulls as
  select id as 'null', 'x0' as variable, name as value from m0 join unit on id = skolem(0, 0, place)
  union all select id, 'x1', dept from m0 join unit on id = skolem(0, 0, place)
  union all select id, 'x0', dname from m1 join unit on id = skolem(1, 0, place);
create table target.fold as
  select open.id as 'null', unit.id as value from open join unit using (uname) where open.id <> unit.id;
