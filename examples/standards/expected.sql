-- One row for each code of either list; a column that the list without the code would have told is a null of the other rule.
create table m0 as select row_number() over (order by code, two, name) - 1 as place, * from (select distinct code, two, name from source.iso639_2);
create table m1 as select row_number() over (order by code, name, scope, kind) - 1 as place, *
  from (select distinct code, name, scope, kind from source.iso639_3);
create table codes as select code from m0 union select code from m1;
create table target.language as
  select code, coalesce(two, skolem(1, 0, m1.place)) as two, coalesce(m0.name, skolem(1, 1, m1.place)) as library_name,
         coalesce(m1.name, skolem(0, 0, m0.place)) as name, coalesce(scope, skolem(0, 1, m0.place)) as scope,
         coalesce(kind, skolem(0, 2, m0.place)) as kind
    from codes left join m0 using (code) left join m1 using (code);
create table target.nulls as
  select skolem(0, y.value, place) as 'null', x.key as variable, x.value as value
    from m0, json_each('[0, 1, 2]') y, json_each(json_object('x0', code, 'x1', two, 'x2', name)) x
   where code not in (select code from m1)
  union all
  select skolem(1, y.value, place), x.key, x.value
    from m1, json_each('[0, 1]') y, json_each(json_object('x0', code, 'x1', name, 'x2', scope, 'x3', kind)) x
   where code not in (select code from m0);
create table target.fold as
  select skolem(0, y.key, m0.place) as 'null', y.value as value
    from m0 join m1 using (code), json_each(json_array(m1.name, scope, kind)) y
  union all
  select skolem(1, y.key, m1.place), y.value from m0 join m1 using (code), json_each(json_array(two, m0.name)) y;
