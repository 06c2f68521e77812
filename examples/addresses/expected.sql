-- The matches of each rule, by their places; no row stands twice.
create table m0 as select row_number() over (order by name, zip) - 1 as place, name, zip from source.card;
create table m1 as select row_number() over (order by name, zip, town) - 1 as place, name, zip, town from source.form;
create table m2 as select row_number() over (order by name, town, country) - 1 as place, name, town, country from source.guest;

-- The town of a zip: what a form says, or else one unknown town for all cards with it.
create table town_of as
  select zip, town from m1
  union select zip, least_null(skolem(0, 0, place)) from m0 where zip not in (select zip from m1) group by zip;

-- All addresses with a town, known or not, and the null that their rule has for the country, if it has one.
create table lives as
  select name, zip, town, skolem(0, 1, place) as open from m0 join town_of using (zip)
  union all select name, zip, town, skolem(1, 0, place) from m1
  union all select name, skolem(2, 0, place), town, null from m2;

-- The country of a town: what the guest book says, or else one unknown country for all who live there.
create table country_of as
  select town, country from m2
  union select town, least_null(open) from lives where town not in (select town from m2) group by town;

create table target.address as select name, zip, town, country from lives join country_of using (town);
create table target.fold as
  select skolem(0, 0, place) as 'null', town as value from m0 join town_of using (zip) where town <> skolem(0, 0, place)
  union all select open, country from lives join country_of using (town) where open <> country;
create table told (text, variable, value);
insert into told
  select skolem(0, 0, place), 'x0', name from m0 union all select skolem(0, 0, place), 'x1', zip from m0
  union all select skolem(0, 1, place), 'x0', name from m0 union all select skolem(0, 1, place), 'x1', zip from m0
  union all select skolem(1, 0, place), 'x0', name from m1 union all select skolem(1, 0, place), 'x1', zip from m1
  union all select skolem(1, 0, place), 'x2', town from m1
  union all select skolem(2, 0, place), 'x0', name from m2 union all select skolem(2, 0, place), 'x1', town from m2
  union all select skolem(2, 0, place), 'x2', country from m2;
create table target.nulls as
  select text as 'null', variable, value from told
   where text in (select zip from target.address union select town from target.address union select country from target.address);
