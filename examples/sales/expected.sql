-- An order keeps its customer if that customer is there, and a customer its town: two outer joins, over the rows that pass.
create table paid as select * from source.orders where number <> '' and number not glob '*[^0-9]*';
create table known as select * from source.customer where name <> '';

-- The matches of the rules that leave something open: of orders, of orders with customers, and of customers.
create table m0 as select row_number() over (order by number, placed) - 1 as place, *
  from (select distinct number, placed from paid);
create table m1 as select row_number() over (order by number, id, placed, name) - 1 as place, *
  from (select distinct number, id, placed, name from paid join known on buyer = id);
create table m2 as select row_number() over (order by id, name) - 1 as place, *
  from (select distinct id, name from known);

create table target.sale as
  select number, placed as day, coalesce(id, skolem(0, 0, place)) as client
    from paid left join known on buyer = id join m0 using (number, placed);
create table target.client as
  select id as cid, name, coalesce(title, (select least_null(city) from
      (select id as cid, skolem(1, 0, place) as city from m1 union select id, skolem(2, 0, place) from m2)
    where cid = id)) as city
    from known left join source.town on town = code;
create table target.nulls as
  select client as 'null', 'x0' as variable, number as value from target.sale where client like '?%'
  union all select client, 'x2', day from target.sale where client like '?%'
  union all select city, 'x0', number from target.client join m1 on city = skolem(1, 0, place)
  union all select city, 'x1', id from target.client join m1 on city = skolem(1, 0, place)
  union all select city, 'x2', placed from target.client join m1 on city = skolem(1, 0, place)
  union all select city, 'x3', m1.name from target.client join m1 on city = skolem(1, 0, place)
  union all select city, 'x0', id from target.client join m2 on city = skolem(2, 0, place)
  union all select city, 'x1', m2.name from target.client join m2 on city = skolem(2, 0, place);
