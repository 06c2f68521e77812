-- A leg for each flight, with the cities of both ports as far as they are there: LEFT JOINs. The first rule leaves both open,
-- the second and the third one each; under the key the three rows are one.
create table target.numbered as
  select f.no, p.city as a, q.city as b, row_number() over (order by f.no) - 1 as place
  from source.flight f left join source.port p on f.dep = p.code left join source.port q on f.arr = q.code;
create table target.leg as
  select no, coalesce(a, skolem(0, 0, place)) as a, coalesce(b, skolem(0, 1, place)) as b from target.numbered;
create table target.nulls as
  select skolem(0, 0, place) as 'null', 'x0' as variable, no as value from target.numbered where a is null
  union all select skolem(0, 1, place), 'x0', no from target.numbered where b is null;
create table target.fold as
  select skolem(0, 0, place) as 'null', a as value from target.numbered where a is not null
  union all select skolem(0, 1, place), b from target.numbered where b is not null
  union all select skolem(1, 0, row_number() over (order by no) - 1), coalesce(b, skolem(0, 1, place))
    from target.numbered where a is not null
  union all select skolem(2, 0, row_number() over (order by no) - 1), coalesce(a, skolem(0, 0, place))
    from target.numbered where b is not null;
drop table target.numbered;
