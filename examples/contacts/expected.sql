-- `pair` puts a space between two texts, `digits` keeps the digits of a text; cards that come out equal are one.
create table target.card as
  with recursive cut (first, last, rest, digits) as (
    select first, last, tel, '' from source.contact
    union all
    select first, last, substr(rest, 2), digits || iif(rest glob '[0-9]*', substr(rest, 1, 1), '') from cut where rest <> ''
  )
  select distinct first || ' ' || last as name, digits as number, 'private' as kind from cut where rest = '';
create table target.nulls as select '' as 'null', '' as variable, '' as value where false;
create table target.fold as select '' as 'null', '' as value where false;
