-- The countries of the document, and the subdivisions with the code of the country that they stand in.
create table target.state as select distinct alpha2 as code, cname as label from source.country;
create table target.region as
  select distinct scode as code, sname as label, kind, alpha2 as state
    from source.subdivision s join source.country c on s."#up" = c."#id";
create table target.nulls as select '' as 'null', '' as variable, '' as value where false;
create table target.fold as select '' as 'null', '' as value where false;
